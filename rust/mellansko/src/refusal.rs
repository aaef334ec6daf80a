//! When a call does nothing.

use crate::{LONGEST_LOG, LONGEST_RECORD};
use std::error::Error;
use std::fmt;

/// Why a call did nothing. No lent byte has changed.
#[derive(Clone, Copy, Debug, PartialEq, Eq, Hash)]
#[must_use = "the call did nothing"]
pub struct Refusal {
    /// The condition that it is refused on.
    pub condition: Condition,
    /// The mark or place that the call was given. A [`Feed`](crate::Feed) takes neither, nor does
    /// [`mend`](crate::mend): 0.
    pub given: usize,
}

/// The conditions on which a call is refused, ordered by their numbers. Where several hold, the one
/// with the lowest number is given; but [`mend`](crate::mend) judges `NoRoom` last. More may come.
#[derive(Clone, Copy, Debug, PartialEq, Eq, PartialOrd, Ord, Hash)]
#[non_exhaustive]
pub enum Condition {
    /// Writing or reading: the log has more than [`LONGEST_LOG`] bytes. Mending: the bad log or the
    /// fresh slice has more. Of a piece: what has come and all of the piece together have more.
    LogTooLong = 1,
    /// Writing or reading: the mark or place is above the log's length. (To C it also says that the
    /// state of a fed reader is none that its calls lead to. That of a [`Feed`](crate::Feed) is.)
    Outside = 2,
    /// Writing: the record has more than [`LONGEST_RECORD`] bytes.
    RecordTooLong = 3,
    /// Writing: the record, with its headers and the trailer before it if there is one, needs more
    /// bytes than the log has from the mark on. Mending: all records together, with theirs, need
    /// more than the fresh slice has.
    NoRoom = 4,
    /// Reading or mending: the limit is above [`LONGEST_RECORD`].
    LimitTooHigh = 5,
    /// Reading or mending: the buffer has fewer bytes than the limit.
    BufferTooShort = 6,
    /// Of a piece, also of one of no bytes: the log's end was announced before it.
    AfterEnd = 20,
}

impl Condition {
    /// All conditions, in the order of their numbers.
    pub const ALL: &'static [Condition] = &[
        Condition::LogTooLong,
        Condition::Outside,
        Condition::RecordTooLong,
        Condition::NoRoom,
        Condition::LimitTooHigh,
        Condition::BufferTooShort,
        Condition::AfterEnd,
    ];

    /// The condition's number, from 1 on. Not every number is a condition's.
    #[must_use]
    pub fn number(self) -> u8 {
        self as u8
    }
}

/// The condition in plain words.
///
/// ```
/// let refusal = mellansko::append(&mut [0; 10], 4, b"LW10-1").unwrap_err();
/// assert_eq!(refusal.condition.number(), 4);
/// let words = "the log has no room for what is to be written from mark 4 on";
/// assert_eq!(refusal.to_string(), words);
/// ```
impl fmt::Display for Refusal {
    fn fmt(&self, f: &mut fmt::Formatter) -> fmt::Result {
        let given = self.given;
        match self.condition {
            Condition::LogTooLong => write!(f, "the log is longer than {LONGEST_LOG} bytes"),
            Condition::Outside => write!(f, "mark or place {given} is beyond the log's end"),
            Condition::RecordTooLong => {
                write!(f, "the record is longer than {LONGEST_RECORD} bytes")
            }
            Condition::NoRoom => {
                let room = "the log has no room for what is to be written";
                write!(f, "{room} from mark {given} on")
            }
            Condition::LimitTooHigh => write!(f, "the limit is above {LONGEST_RECORD} bytes"),
            Condition::BufferTooShort => write!(f, "the buffer is shorter than the limit"),
            Condition::AfterEnd => write!(f, "the log's end was announced before the piece"),
        }
    }
}

impl Error for Refusal {}
