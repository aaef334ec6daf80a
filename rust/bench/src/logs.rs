//! The proved writer and reader beside the reference, a loop over the proved checksum alone, and the
//! other programs that there are: LevelDB's own writer and reader, and the proved ones as they were.

use crate::other::Other;
use crate::sample::Sample;
use crate::turns::{best, rate, timed, Way};
use reference::log::{Appended, Next};
use std::hint::black_box;

/// How long the records are.
pub const LENGTHS: [usize; 4] = [100, 1 << 10, 8 << 10, 100 << 10];

/// The limit on a record's length, which archives from before longer ones were taken do not refuse.
pub const LIMIT: usize = 256 << 10;

/// How long the logs are.
pub const LOG: usize = 15 << 20;

pub const ROUNDS: usize = 11;

/// The new mark, if the append was accepted.
type Append = fn(log: &mut [u8], mark: usize, record: &[u8]) -> Option<usize>;

/// The place to go on from, if the answer was a record. The limit is the buffer's length.
type Read = fn(log: &[u8], place: usize, buffer: &mut [u8]) -> Option<usize>;

pub fn print(others: &mut [Other]) {
    println!(
        "\nlogs of 15 MiB: MB/s of records, and the ratio of the proved calls to each other way"
    );
    print!("{:>5} {:>7} {:>8}", "", "bytes", "proved");
    let names = others.iter().map(|other| other.name);
    for name in ["reference", "checksum"].into_iter().chain(names) {
        print!(" {name:>10} {:>6}", "ratio");
    }
    println!();
    for length in LENGTHS {
        let sample = Sample::new(length, LOG);
        sample.compare(others);
        sample.print_line("write", sample.writing(), others);
        sample.print_line("read", sample.reading(), others);
    }
}

impl Sample {
    /// All must do the same work: the other ways write the same log.
    fn compare(&self, others: &mut [Other]) {
        let mut log = vec![0; self.log.len()];
        self.write(&mut log, reference_append);
        assert!(log == self.log, "the reference writes another log");
        for other in others {
            let log = other.log(self.record.len(), self.count);
            assert!(log == self.log, "{} writes another log", other.name);
        }
    }

    fn writing(&self) -> Vec<Way<'_>> {
        let way = |append: Append| -> Way {
            let mut log = vec![0; LOG];
            Box::new(timed(move || self.write(&mut log, append)))
        };
        vec![way(proved_append), way(reference_append), self.summing()]
    }

    fn reading(&self) -> Vec<Way<'_>> {
        let way = |next: Read| -> Way {
            let mut buffer = vec![0; LIMIT];
            Box::new(timed(move || self.read(&mut buffer, next)))
        };
        vec![way(proved_next), way(reference_next), self.summing()]
    }

    /// The checksum of each record and nothing else.
    fn summing(&self) -> Way<'_> {
        Box::new(timed(|| {
            for _ in 0..self.count {
                black_box(mellansko::crc32c(0, black_box(&self.record)));
            }
        }))
    }

    pub fn write(&self, log: &mut [u8], append: Append) {
        let mut mark = 0;
        for _ in 0..self.count {
            mark = append(log, mark, black_box(&self.record)).expect("room for the record");
        }
    }

    pub fn read(&self, buffer: &mut [u8], next: Read) {
        let (mut count, mut place) = (0, 0);
        while let Some(end) = next(black_box(&self.log), place, buffer) {
            count += 1;
            place = end;
        }
        assert_eq!((count, place), (self.count, self.log.len()));
    }

    /// The times of the ways and of the other programs, as one line.
    fn print_line<'a>(&self, what: &'a str, mut ways: Vec<Way<'a>>, others: &'a mut [Other]) {
        let (length, count) = (self.record.len(), self.count);
        for other in others {
            ways.push(Box::new(move || other.time(what, length, count)));
        }
        let times = best(ROUNDS, &mut ways);
        let mut rates = times.into_iter().map(|time| rate(length * count, time));
        let proved = rates.next().expect("the proved way is the first");
        print!("{what:>5} {length:>7} {proved:>8.1}");
        for other in rates {
            print!(" {other:>10.1} {:>6.2}", proved / other);
        }
        println!();
    }
}

pub fn proved_append(log: &mut [u8], mark: usize, record: &[u8]) -> Option<usize> {
    mellansko::append(log, mark, record).ok()
}

fn reference_append(log: &mut [u8], mark: usize, record: &[u8]) -> Option<usize> {
    match reference::log::append(log, mark, record) {
        Appended::Mark(mark) => Some(mark),
        Appended::Refused { .. } => None,
    }
}

pub fn proved_next(log: &[u8], place: usize, buffer: &mut [u8]) -> Option<usize> {
    match mellansko::next(log, place, buffer.len(), buffer) {
        Ok((mellansko::Next::Record(_), end)) => Some(end),
        _ => None,
    }
}

fn reference_next(log: &[u8], place: usize, buffer: &mut [u8]) -> Option<usize> {
    match reference::log::next(log, place, buffer.len(), buffer) {
        Next::Record { end, .. } => Some(end),
        _ => None,
    }
}
