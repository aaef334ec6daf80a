//! Where records may be missing: all that is in doubt between two that can be read.

use crate::words::{blocks, blocks_of, bytes, numbered};
use mellansko::{Answer, Reason, Tail};

/// A record that can be read: its number, from 1 on, and where it stands.
#[derive(Clone, Copy, PartialEq, Eq)]
pub struct Place {
    pub number: usize,
    pub start: usize,
    pub end: usize,
}

/// A range in doubt.
#[derive(Clone, Copy)]
pub struct Doubt {
    pub start: usize,
    pub end: usize,
    /// Why; none for the torn tail, inside of which the journal ends.
    pub reason: Option<Reason>,
}

impl Doubt {
    /// What is in doubt by an answer, where so many bytes have come. Every command asks here, so a
    /// range that counts as no loss is in doubt for none of them.
    pub fn by(answer: &Answer, came: usize) -> Option<Doubt> {
        match *answer {
            Answer::Skip(skip) => skip.reason.is_loss().then_some(Doubt {
                start: skip.start,
                end: skip.end,
                reason: Some(skip.reason),
            }),
            Answer::End(Tail::Torn(start)) => Some(Doubt {
                start,
                end: came,
                reason: None,
            }),
            Answer::Record { .. } | Answer::End(Tail::Clean) => None,
        }
    }

    pub fn bytes(&self) -> usize {
        self.end - self.start
    }
}

/// Ranges in doubt with no record between them that can be read.
pub struct Gap {
    pub before: Option<Place>,
    pub after: Option<Place>,
    /// The first of its ranges, as many as are to be listed.
    pub ranges: Vec<Doubt>,
    /// How many ranges there are in all.
    number: usize,
    /// How many bytes are in doubt.
    pub bytes: usize,
    /// From the first byte in doubt to the last.
    start: usize,
    end: usize,
}

impl Gap {
    /// One that begins with this range.
    pub fn new(before: Option<Place>, range: &Doubt) -> Gap {
        Gap {
            before,
            after: None,
            // Most gaps have one.
            ranges: Vec::with_capacity(1),
            number: 0,
            bytes: 0,
            start: range.start,
            end: range.end,
        }
    }

    /// Counts a range, and keeps it if it is to be listed.
    pub fn add(&mut self, range: Doubt, keep: bool) {
        self.number += 1;
        self.bytes += range.bytes();
        self.end = range.end;
        if keep {
            self.ranges.push(range);
        }
    }

    /// How many of its ranges are not kept.
    pub fn hidden(&self) -> usize {
        self.number - self.ranges.len()
    }

    /// How many bytes it has, in which blocks, and between which records it lies.
    pub fn heading(&self) -> String {
        let record = |place: Place| numbered("record", place.number);
        let ends = |place: Place| format!("which ends at {}", numbered("byte", place.end));
        let starts = |place: Place| format!("which starts at {}", numbered("byte", place.start));
        let lies = match (self.before, self.after) {
            (Some(before), Some(after)) => format!(
                "between {}, {}, and {}, {}",
                record(before),
                ends(before),
                record(after),
                starts(after)
            ),
            (None, Some(after)) => format!("before the first readable record, {}", starts(after)),
            (Some(before), None) => format!(
                "after the last readable record, {}, {}",
                numbered("number", before.number),
                ends(before)
            ),
            (None, None) => "with no readable record before it or after it".into(),
        };
        let (first, last) = blocks_of(self.start, self.end);
        let blocks = blocks(first, last);
        format!("Gap of {} in {blocks}, {lies}", bytes(self.bytes))
    }
}
