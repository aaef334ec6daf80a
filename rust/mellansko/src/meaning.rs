//! What the numbers of an answer mean, in types.
//!
//! Each is read by itself, where the call wrote it (see `numbers`). A record is what most answers
//! are: that part goes into the caller's loop, the others are called.

use crate::numbers::Numbers;
use crate::{Condition, Mended, Next, Reason, Record, Refusal, Skip, Stored, Tail};

/// The new mark.
#[inline]
pub fn append(kind: u64, answer: &Numbers) -> Result<usize, Refusal> {
    match kind {
        0 => Ok(number(answer, 1)),
        1 => Err(refusal(answer)),
        _ => unproved(answer),
    }
}

/// Whether a feed is begun.
pub fn begun(kind: u64, answer: &Numbers) -> Result<(), Refusal> {
    match kind {
        0 => Ok(()),
        1 => Err(refusal(answer)),
        _ => unproved(answer),
    }
}

/// How many bytes of a piece were taken.
#[inline]
pub fn taken(kind: u64, answer: &Numbers) -> Result<usize, Refusal> {
    match kind {
        0 => Ok(number(answer, 1)),
        1 => Err(refusal(answer)),
        _ => unproved(answer),
    }
}

/// How long a mended log is, and how much was skipped.
pub fn mended(kind: u64, answer: &Numbers) -> Result<Mended, Refusal> {
    match kind {
        0 => Ok(Mended {
            length: number(answer, 1),
            skipped: number(answer, 2),
        }),
        1 => Err(refusal(answer)),
        _ => unproved(answer),
    }
}

/// What is certain of a log that is fed in pieces, if anything more is.
#[inline]
pub fn certain(kind: u64, answer: &Numbers) -> Result<Option<Next>, Refusal> {
    match kind {
        4 => Ok(None),
        _ => next(kind, answer).map(|(next, _)| Some(next)),
    }
}

/// What comes next, and the place to go on from.
#[inline]
pub fn next(kind: u64, answer: &Numbers) -> Result<(Next, usize), Refusal> {
    let next = match kind {
        0 => Next::Record(record(answer)),
        1 => Next::Skip(skip(answer)),
        2 => Next::End(tail(answer)),
        3 => return Err(refusal(answer)),
        _ => unproved(answer),
    };
    Ok((next, number(answer, 6)))
}

#[inline]
fn record(answer: &Numbers) -> Record {
    Record {
        start: number(answer, 1),
        end: number(answer, 2),
        length: number(answer, 3),
        stored: match answer[4] {
            0 => Stored::Whole(number(answer, 5)),
            1 => Stored::Gathered,
            _ => unproved(answer),
        },
        fragments: number(answer, 7),
        last_header: number(answer, 8),
    }
}

fn skip(answer: &Numbers) -> Skip {
    Skip {
        start: number(answer, 1),
        end: number(answer, 2),
        reason: numbered(Reason::ALL, Reason::number, answer, 3),
    }
}

fn tail(answer: &Numbers) -> Tail {
    match answer[1] {
        0 => Tail::Clean,
        1 => Tail::Torn(number(answer, 2)),
        _ => unproved(answer),
    }
}

#[cold]
fn refusal(answer: &Numbers) -> Refusal {
    Refusal {
        condition: numbered(Condition::ALL, Condition::number, answer, 1),
        given: number(answer, 2),
    }
}

/// A place, a length or a mark of an answer.
#[inline]
fn number(answer: &Numbers, at: usize) -> usize {
    answer[at] as usize
}

/// The one of a list whose number stands in the answer.
fn numbered<T: Copy>(all: &[T], number: fn(T) -> u8, answer: &Numbers, at: usize) -> T {
    let mut all = all.iter().copied();
    all.find(|&one| u64::from(number(one)) == answer[at])
        .unwrap_or_else(|| unproved(answer))
}

/// The proved calls give no such answer: what is linked is not them.
#[cold]
fn unproved(answer: &Numbers) -> ! {
    panic!("the archive gave an answer that there is not: {answer:?}")
}
