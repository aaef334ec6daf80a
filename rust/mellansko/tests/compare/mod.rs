//! Calls under test against the reference. Each call is made to both, on copies of the same bytes;
//! the answers, the bytes that an answer's words lead to, and every lent byte and those around it
//! must be the same.

mod appends;
mod cuts;
mod damage;
mod forge;
mod fragments;
mod hurt;
mod lent;
mod made;
mod make;
mod mixed;
mod odd;
mod refusals;
mod sizes;
mod starts;
mod trailers;
mod words;

use crate::random::Random;
use crate::strict::{self, Strict};
use lent::Lent;
pub use made::{Dirty, Made, Several};
use reference::log::{append, next, record_bytes, Appended, Next};
use reference::log::{BLOCK, HEADER, LONGEST_RECORD};

/// The calls under test. Their answers are the ten words of the C interface. A trait, so that wrong
/// calls can stand in to see that the comparison notices them.
pub trait Calls {
    fn append(&self, log: &mut [u8], mark: usize, record: &[u8]) -> [u64; 10];
    fn next(&self, log: &[u8], place: usize, limit: usize, buffer: &mut [u8]) -> [u64; 10];
    /// All records, or all that is in doubt.
    fn records(&self, log: &[u8], limit: usize) -> Strict;
}

/// Compares on everything there is here, and gives how much that was.
pub fn everything(calls: &dyn Calls) -> Made {
    let mut comparison = Comparison {
        calls,
        random: Random::new(),
        part: "",
        made: Made::default(),
    };
    // Shown where the test fails, wherever that is.
    println!("{}", comparison.random);
    let parts: [(&str, Part); 6] = [
        ("refusals", refusals::all),
        ("sizes", sizes::all),
        ("appends", appends::all),
        ("cuts", cuts::all),
        ("damage", damage::all),
        ("fragments", fragments::all),
    ];
    for (part, all) in parts {
        comparison.part = part;
        let before = comparison.made.calls;
        all(&mut comparison);
        println!("{part}: {} calls", comparison.made.calls - before);
    }
    comparison.made
}

type Part = fn(&mut Comparison);

struct Comparison<'a> {
    calls: &'a dyn Calls,
    random: Random,
    part: &'static str,
    made: Made,
}

/// One call to both.
impl Comparison<'_> {
    fn append(&mut self, log: &mut Lent, mark: usize, record: &[u8]) -> Appended {
        let record = Lent::new(record, &mut self.random);
        let words = self.calls.append(log.tested_mut(), mark, record.tested());
        let answer = append(log.expected_mut(), mark, record.expected());
        self.made.calls += 1;
        let call = || {
            let (log, record) = (log.len(), record.len());
            self.name(&format!("append of {record} bytes at {mark} of {log}"))
        };
        assert_eq!(words, words::of_appended(answer), "answer, {}", call());
        assert!(log.is_same(), "log, {}", call());
        assert!(record.is_same(), "record, {}", call());
        answer
    }

    fn next(&mut self, log: &Lent, place: usize, limit: usize, buffer: &mut Lent) -> Next {
        let words = self
            .calls
            .next(log.tested(), place, limit, buffer.tested_mut());
        let answer = next(log.expected(), place, limit, buffer.expected_mut());
        self.made.calls += 1;
        self.made.answered(&answer);
        let call = || {
            let (log, buffer) = (log.len(), buffer.len());
            self.name(&format!(
                "next at {place} of {log}, limit {limit}, buffer {buffer}"
            ))
        };
        let expected = words::of_next(answer, log.expected());
        assert_eq!(words, expected, "answer, {}", call());
        assert!(log.is_same(), "log, {}", call());
        assert!(buffer.is_same(), "buffer, {}", call());
        let tested = words::bytes(&words, log.tested(), buffer.tested());
        let expected = record_bytes(log.expected(), buffer.expected(), &answer);
        assert!(tested == expected, "bytes asked for, {}", call());
        answer
    }

    /// What a failure prints, so that the call can be had again.
    fn name(&self, call: &str) -> String {
        let calls = self.made.calls;
        format!("{}, call {calls}, {}: {call}", self.part, self.random)
    }
}

/// Readings.
impl Comparison<'_> {
    /// Every answer from place 0 to the end, each with the bytes asked for right after it; and then
    /// the strict way, which is to have made the same of them.
    fn read(&mut self, log: &Lent, limit: usize, buffer: &mut Lent) -> Vec<(Next, Vec<u8>)> {
        let mut answers = Vec::new();
        let mut place = 0;
        loop {
            let answer = self.next(log, place, limit, buffer);
            let bytes = record_bytes(log.expected(), buffer.expected(), &answer);
            answers.push((answer, bytes.to_vec()));
            match answer {
                Next::Record { end, .. } | Next::Skip { end, .. } => place = end,
                Next::End(_) | Next::Refused { .. } => break,
            }
        }
        // docs/FORMAT.md, §6.3.
        let most = log.len() / HEADER + 1 + log.len().div_ceil(BLOCK);
        assert!(answers.len() <= most, "{}", self.name("calls of a reading"));
        let records = self.calls.records(log.tested(), limit);
        let same = records == strict::of_answers(&answers);
        assert!(same, "{}", self.name(&format!("records, limit {limit}")));
        answers
    }

    /// Any bytes as a log: read to the end with a limit that no record is above, and with one at or
    /// just below a record's length; then single calls, at a place that came up, at any, and at one
    /// where a trailer is judged, with any limit and buffer.
    fn examine(&mut self, bytes: &[u8]) {
        let log = Lent::new(bytes, &mut self.random);
        let most = bytes.len().min(LONGEST_RECORD);
        let mut buffer = self.buffer(most);
        let answers = self.read(&log, most, &mut buffer);
        let (answer, record) = make::pick(&mut self.random, &answers);
        let limit = record.len().saturating_sub(self.random.below(2));
        buffer.cut(limit);
        self.read(&log, limit, &mut buffer);
        let few_left = few_left(&mut self.random, bytes.len());
        for place in [
            answer.place_after(bytes),
            self.random.below(bytes.len() + 2),
            few_left,
        ] {
            for _ in 0..3 {
                let scale = self.random.below(most + 2);
                let limit = self.random.below(scale + 1);
                let short = usize::from(self.random.below(8) == 0);
                buffer.cut(limit.saturating_sub(short).min(most));
                let answer = self.next(&log, place, limit, &mut buffer);
                if place == few_left {
                    self.made.made_up(&answer);
                }
            }
        }
    }

    fn buffer(&mut self, length: usize) -> Lent {
        let bytes = self.random.bytes(length);
        Lent::new(&bytes, &mut self.random)
    }
}

/// A place in a log of this length where no header fits its block; or the end, if there is none.
fn few_left(random: &mut Random, length: usize) -> usize {
    let block = random.below(length / BLOCK + 1) * BLOCK;
    length.min(block + BLOCK - 1 - random.below(HEADER - 1))
}
