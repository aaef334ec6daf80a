//! What a log of the greatest length costs the readers for each of its bytes, beside one of 15 MiB.

use crate::fed::{feeding, yes_or_no, Answers};
use crate::logs::{proved_next, LOG};
use crate::sample::Sample;
use crate::turns::{best, rate, timed, Way};
use mellansko::{BLOCK, LONGEST_LOG, LONGEST_RECORD};

/// How long the records are.
const LENGTHS: [usize; 3] = [100, 8 << 10, LONGEST_RECORD];

/// The highest ratio that is allowed.
const MOST: f64 = 1.05;

/// Few, since a run is long.
const ROUNDS: usize = 3;

pub fn print() {
    println!(
        "\nlogs of 15 MiB and of 1 GiB: MB/s of the log, and the ratio of what a byte of the long one \
         costs to\nwhat one of the short one does, which is asked to be at most {MOST}"
    );
    println!(
        "{:>7} {:>6} {:>8} {:>8} {:>6}  at most {MOST}",
        "bytes", "reader", "15 MiB", "1 GiB", "ratio"
    );
    for length in LENGTHS {
        let (short, long) = (Sample::new(length, LOG), Sample::new(length, LONGEST_LOG));
        print_line(length, "next", [next(&short, &long), next(&long, &long)]);
        print_line(length, "fed", [fed(&short, &long), fed(&long, &long)]);
    }
}

/// A way, and how many bytes it reads.
type Reading<'a> = (Way<'a>, usize);

fn print_line(length: usize, reader: &str, readings: [Reading; 2]) {
    let (mut ways, bytes): (Vec<_>, Vec<_>) = readings.into_iter().unzip();
    let times = best(ROUNDS, &mut ways);
    let rates: Vec<f64> = times
        .into_iter()
        .zip(bytes)
        .map(|(time, bytes)| rate(bytes, time))
        .collect();
    let ratio = rates[0] / rates[1];
    let met = yes_or_no(ratio <= MOST);
    println!(
        "{length:>7} {reader:>6} {:>8.1} {:>8.1} {ratio:>6.3}  {met}",
        rates[0], rates[1]
    );
}

/// How often a log is read, so that it takes about as long as the long one: the better of two short
/// times would be the luckier one.
fn often(sample: &Sample, long: &Sample) -> usize {
    long.log.len() / sample.log.len()
}

fn next<'a>(sample: &'a Sample, long: &Sample) -> Reading<'a> {
    let often = often(sample, long);
    let mut buffer = vec![0; LONGEST_RECORD];
    let way = timed(move || (0..often).for_each(|_| sample.read(&mut buffer, proved_next)));
    (Box::new(way), often * sample.log.len())
}

/// In pieces of a block.
fn fed<'a>(sample: &'a Sample, long: &Sample) -> Reading<'a> {
    let often = often(sample, long);
    let mut once = feeding(&sample.log, BLOCK, Answers::of_records(sample.count));
    let way = move || (0..often).map(|_| once()).sum();
    (Box::new(way), often * sample.log.len())
}
