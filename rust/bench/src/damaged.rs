//! What damage costs the reader that is fed in pieces. A bad fragment waits for its block's end,
//! byte after byte: if it were summed anew at each of them, these logs would take up to minutes.

use crate::fed::{feeding, yes_or_no, Answers};
use crate::logs::{LENGTHS, LOG};
use crate::sample::{self, Sample};
use crate::turns::best;
use mellansko::{Reason, BLOCK};
use reference::log::{fragment, FIRST, FULL, HEADER, LAST};

/// The highest ratio that is allowed.
const MOST: f64 = 3.0;

/// Few, since a run is long.
const ROUNDS: usize = 5;

/// A log, and the same with one byte changed in each block.
struct Pair {
    /// How many bytes a record has in which the damage is.
    length: usize,
    /// What is open where it is met.
    open: &'static str,
    whole: Vec<u8>,
    damaged: Vec<u8>,
    /// What each of them answers.
    answers: [Answers; 2],
}

pub fn print() {
    println!(
        "\nlogs of 15 MiB fed byte by byte, whole and with a fragment damaged in every block: ms, \
         and\nthe ratio of the damaged log's time to the whole one's, which is asked to be at most \
         {MOST}"
    );
    println!(
        "{:>7} {:>9} {:>8} {:>8} {:>6}  at most {MOST}",
        "bytes", "open", "whole", "damaged", "ratio"
    );
    for length in LENGTHS {
        nothing_open(length).print_line();
        record_open(length).print_line();
    }
}

/// Records of one length as the writer puts them. The first fragment of each block is damaged, so
/// the rest is not read, and no record is opened that goes on in the next block.
fn nothing_open(length: usize) -> Pair {
    let Sample { log, count, .. } = Sample::new(length, LOG);
    let (damaged, answers) = damage(&log, HEADER, &[Reason::Checksum]);
    Pair {
        length,
        open: "nothing",
        whole: log,
        damaged,
        answers: [Answers::of_records(count), answers],
    }
}

/// In each block a record is opened, and then comes a damaged fragment of so many bytes, or of as
/// many as there is room for. It is summed once for the record that it breaks off, and once for
/// itself. The writer opens no record but at a block's end, so this is made by hand. A third
/// fragment fills the block.
fn record_open(length: usize) -> Pair {
    let data = sample::bytes(BLOCK - 3 * HEADER);
    let (last, full) = data.split_at(length.min(data.len()));
    let block = [(FIRST, &[][..]), (LAST, last), (FULL, full)];
    let block = block.map(|(kind, data)| fragment(kind, data)).concat();
    let blocks = LOG / BLOCK;
    let whole = block.repeat(blocks);
    let reasons = [Reason::Interrupted, Reason::Checksum];
    let (damaged, answers) = damage(&whole, 2 * HEADER, &reasons);
    Pair {
        length: last.len(),
        open: "a record",
        whole,
        damaged,
        answers: [Answers::of_records(2 * blocks), answers],
    }
}

/// A log with the byte at a place in each block changed, where that gives one range for each of the
/// reasons and nothing else.
fn damage(log: &[u8], place: usize, reasons: &[Reason]) -> (Vec<u8>, Answers) {
    let mut damaged = log.to_vec();
    let blocks = damaged.chunks_mut(BLOCK);
    let answers = Answers::of_skips(blocks.len(), reasons);
    blocks.for_each(|block| block[place] ^= 1);
    (damaged, answers)
}

impl Pair {
    fn print_line(&self) {
        let Pair { length, open, .. } = self;
        let [whole, damaged] = self.answers;
        let mut ways = [
            feeding(&self.whole, 1, whole),
            feeding(&self.damaged, 1, damaged),
        ];
        let times = best(ROUNDS, &mut ways);
        let [whole, damaged] = [times[0], times[1]].map(|time| time.as_secs_f64() * 1e3);
        let ratio = damaged / whole;
        let met = yes_or_no(ratio <= MOST);
        println!("{length:>7} {open:>9} {whole:>8.1} {damaged:>8.1} {ratio:>6.2}  {met}");
    }
}
