//! Mending a log beside what it comes to: two readings of the log and a writing of its records.

use crate::fed::yes_or_no;
use crate::logs::{LOG, ROUNDS};
use crate::sample::Sample;
use crate::turns::{best, timed, Way};
use mellansko::{numbers, Mended, BLOCK, LONGEST_RECORD};
use std::hint::black_box;

const LENGTHS: [usize; 3] = [100, 4_096, 100 << 10];

/// The highest ratio that is allowed.
const MOST: f64 = 1.15;

/// How many blocks lie from one damaged byte to the next.
const APART: usize = 10;

pub fn print() {
    println!(
        "\nlogs of 15 MiB mended, whole and with a byte damaged in every tenth block: ms, and the \
         ratio\nto two readings of the log and a writing of its records, which is asked to be at \
         most {MOST}"
    );
    println!(
        "{:>7} {:>8} {:>8} {:>8} {:>6}  at most {MOST}",
        "bytes", "log", "beside", "mended", "ratio"
    );
    for length in LENGTHS {
        let Sample { record, log, .. } = Sample::new(length, LOG);
        let mut damaged = log.clone();
        let blocks = damaged.chunks_mut(APART * BLOCK);
        // Inside of a block, so that some of its records are left.
        blocks.for_each(|blocks| blocks[BLOCK / 2] ^= 1);
        Task::new(&log, &record).print_line("whole");
        Task::new(&damaged, &record).print_line("damaged");
    }
}

/// A log of which every record that can be read is the same one, and what is in it.
struct Task<'a> {
    log: &'a [u8],
    record: &'a [u8],
    /// How many of them can be read.
    count: usize,
    mended: Mended,
}

impl Task<'_> {
    fn new<'a>(log: &'a [u8], record: &'a [u8]) -> Task<'a> {
        let (count, skipped) = read(log, &mut vec![0; LONGEST_RECORD]);
        let mut written = vec![0; LOG];
        let length = write(record, count, &mut written);
        let mended = Mended { length, skipped };
        let task = Task {
            log,
            record,
            count,
            mended,
        };
        assert!(task.mended_bytes() == written[..length]);
        task
    }

    /// What mending makes: looked at once, since looking takes time too.
    fn mended_bytes(&self) -> Vec<u8> {
        let (mut fresh, mut buffer) = (vec![0; LOG], vec![0; LONGEST_RECORD]);
        let mended = mellansko::mend(self.log, &mut fresh, LONGEST_RECORD, &mut buffer);
        assert_eq!(mended, Ok(self.mended));
        fresh.truncate(self.mended.length);
        fresh
    }

    fn print_line(&self, which: &str) {
        let times = best(ROUNDS, &mut [self.beside(), self.mending()]);
        let [beside, mended] = [times[0], times[1]].map(|time| time.as_secs_f64() * 1e3);
        let ratio = mended / beside;
        let met = yes_or_no(ratio <= MOST);
        let length = self.record.len();
        println!("{length:>7} {which:>8} {beside:>8.1} {mended:>8.1} {ratio:>6.2}  {met}");
    }

    /// Both readings and the writing in one turn, so that it is about as long as the other: on a
    /// busy machine a shorter one is disturbed less often.
    fn beside(&self) -> Way<'_> {
        let (mut log, mut buffer) = (vec![0; LOG], vec![0; LONGEST_RECORD]);
        Box::new(timed(move || {
            let Mended { length, skipped } = self.mended;
            for _ in 0..2 {
                let found = read(black_box(self.log), &mut buffer);
                assert_eq!(found, (self.count, skipped));
            }
            let mark = write(black_box(self.record), self.count, &mut log);
            assert_eq!(mark, length);
        }))
    }

    fn mending(&self) -> Way<'_> {
        let (mut fresh, mut buffer) = (vec![0; LOG], vec![0; LONGEST_RECORD]);
        Box::new(timed(move || {
            let log = black_box(self.log);
            let mended = mellansko::mend(log, &mut fresh, LONGEST_RECORD, &mut buffer);
            assert_eq!(mended, Ok(self.mended));
        }))
    }
}

// The calls of C, since what the types add to a call would make mending look better than it is.

/// How many records a log has, and how many bytes of it are skipped.
fn read(log: &[u8], buffer: &mut [u8]) -> (usize, usize) {
    let (mut count, mut skipped, mut place, mut answer) = (0, 0, 0, [0; 10]);
    loop {
        match numbers::next(log, place, LONGEST_RECORD, buffer, &mut answer) {
            0 => count += 1,
            1 => skipped += (answer[2] - answer[1]) as usize,
            2 => return (count, skipped),
            _ => panic!("refused: {answer:?}"),
        }
        place = answer[6] as usize;
    }
}

/// Writes a record so many times, and gives the mark after it.
fn write(record: &[u8], count: usize, log: &mut [u8]) -> usize {
    let (mut mark, mut answer) = (0, [0; 10]);
    for _ in 0..count {
        assert_eq!(numbers::append(log, mark, record, &mut answer), 0);
        mark = answer[1] as usize;
    }
    mark
}
