//! The crate's answers, in the reference's types. How its reasons and conditions are numbered is
//! said here once more, by docs/FORMAT.md (§4.7, §5.1, §11.11, §12.5) and not by the crate's lists.

// Each test program takes a part of it.
#![allow(dead_code)]

use mellansko::{Condition, Next, Reason, Refusal, Stored, Tail};
use reference::log;

pub fn appended(answer: Result<usize, Refusal>) -> log::Appended {
    match answer {
        Ok(mark) => log::Appended::Mark(mark),
        Err(Refusal { condition, given }) => {
            let number = condition_number(condition);
            log::Appended::Refused { number, given }
        }
    }
}

/// The answer, and the place to go on from.
pub fn read(answer: Result<(Next, usize), Refusal>) -> (log::Next, usize) {
    match answer {
        Ok((next, on)) => (next_of(next), on),
        Err(refusal) => (refused(refusal), refusal.given),
    }
}

pub fn next_of(answer: Next) -> log::Next {
    match answer {
        Next::Record(record) => log::Next::Record {
            start: record.start,
            end: record.end,
            length: record.length,
            stored: match record.stored {
                Stored::Whole(place) => log::Stored::Whole(place),
                Stored::Gathered => log::Stored::Gathered,
            },
            fragments: record.fragments,
            last_header: record.last_header,
        },
        Next::Skip(skip) => log::Next::Skip {
            start: skip.start,
            end: skip.end,
            reason: reason_number(skip.reason),
        },
        Next::End(tail) => log::Next::End(tail_of(tail)),
    }
}

pub fn tail_of(tail: Tail) -> log::Tail {
    match tail {
        Tail::Clean => log::Tail::Clean,
        Tail::Torn(start) => log::Tail::Torn(start),
    }
}

pub fn refused(Refusal { condition, given }: Refusal) -> log::Next {
    let number = condition_number(condition);
    log::Next::Refused { number, given }
}

fn reason_number(reason: Reason) -> u8 {
    let number = match reason {
        Reason::BadLength => 1,
        Reason::Blank => 2,
        Reason::Checksum => 3,
        Reason::Interrupted => 4,
        Reason::Orphan => 5,
        Reason::UnknownType => 6,
        Reason::OverLimit => 7,
        Reason::EmptyStart => 8,
        Reason::DirtyTrailer => 9,
        _ => panic!("the format does not have {reason:?}"),
    };
    assert_eq!(reason.number(), number);
    number
}

fn condition_number(condition: Condition) -> u8 {
    let number = match condition {
        Condition::LogTooLong => 1,
        Condition::Outside => 2,
        Condition::RecordTooLong => 3,
        Condition::NoRoom => 4,
        Condition::LimitTooHigh => 5,
        Condition::BufferTooShort => 6,
        Condition::AfterEnd => 20,
        _ => panic!("the format does not have {condition:?}"),
    };
    assert_eq!(condition.number(), number);
    number
}
