//! The reader that is fed in pieces beside `next` over the whole log.

use crate::logs::{LENGTHS, LOG, ROUNDS};
use crate::sample::Sample;
use crate::turns::{best, rate, timed, Way};
use crate::types;
use mellansko::{Answer, Feed, Reason};
use std::hint::black_box;

/// How many bytes come at once.
const PIECES: [usize; 4] = [1, 100, 4_096, 32_768];

/// The least ratio that is asked for, of pieces of so many bytes and more.
const LEAST: f64 = 0.8;
const ASKED_FROM: usize = 4_096;

pub fn print() {
    println!(
        "\nlogs of 15 MiB fed in pieces: MB/s of records, and the ratio to `next` over the whole \
         log,\nwhich is asked to be at least {LEAST} from pieces of {ASKED_FROM} bytes on"
    );
    println!(
        "{:>7} {:>7} {:>8} {:>8} {:>6}  at least {LEAST}",
        "bytes", "pieces", "next", "fed", "ratio"
    );
    for length in LENGTHS {
        Sample::new(length, LOG).print_pieces();
    }
}

impl Sample {
    /// A line for each length of a piece. All take turns with one `next`.
    fn print_pieces(&self) {
        let mut ways = vec![types::next(self)];
        let whole = Answers::of_records(self.count);
        ways.extend(PIECES.map(|piece| feeding(&self.log, piece, whole)));
        let length = self.record.len();
        let times = best(ROUNDS, &mut ways).into_iter();
        let mut rates = times.map(|time| rate(length * self.count, time));
        let next = rates.next().expect("`next` is the first way");
        for (piece, fed) in PIECES.into_iter().zip(rates) {
            let ratio = fed / next;
            let asked = piece >= ASKED_FROM;
            let met = if asked { yes_or_no(ratio >= LEAST) } else { "" };
            let line = format!("{length:>7} {piece:>7} {next:>8.1} {fed:>8.1} {ratio:>6.2}  {met}");
            println!("{}", line.trim_end());
        }
    }
}

/// How many answers of each kind a log has before its end.
#[derive(Clone, Copy, Debug, PartialEq, Eq)]
pub struct Answers {
    records: usize,
    /// The ranges skipped, by the numbers of their reasons.
    skips: [usize; Reason::ALL.len() + 1],
}

impl Answers {
    pub fn of_records(records: usize) -> Answers {
        let skips = [0; Reason::ALL.len() + 1];
        Answers { records, skips }
    }

    /// So many ranges for each of the reasons, and no record.
    pub fn of_skips(count: usize, reasons: &[Reason]) -> Answers {
        let mut answers = Answers::of_records(0);
        for reason in reasons {
            answers.skips[usize::from(reason.number())] = count;
        }
        answers
    }

    /// Looks at a record's bytes, as those that it is compared with do.
    fn count(&mut self, answer: Answer) {
        match answer {
            Answer::Record { bytes, .. } => {
                black_box(&*bytes);
                self.records += 1;
            }
            Answer::Skip(skip) => self.skips[usize::from(skip.reason.number())] += 1,
            Answer::End(_) => {}
        }
    }
}

/// Feeds a log in pieces of one length. After each piece all that is certain is drawn.
pub fn feeding(log: &[u8], length: usize, expected: Answers) -> Way<'_> {
    Box::new(move || {
        let mut feed = Feed::new();
        timed(move || {
            let mut answers = Answers::of_records(0);
            for piece in black_box(log).chunks(length) {
                let mut certain = feed.push(piece).expect("no refusal");
                while let Some(answer) = certain.advance() {
                    answers.count(answer);
                }
            }
            feed.end();
            while let Some(answer) = feed.advance() {
                answers.count(answer);
            }
            assert_eq!((answers, feed.place()), (expected, log.len()));
        })()
    })
}

/// Whether what is asked was met. A slow machine or a busy one is no failure.
pub fn yes_or_no(met: bool) -> &'static str {
    if met {
        "yes"
    } else {
        "no"
    }
}
