//! What the reader answers.

use crate::Reason;
use std::fmt;

/// The next thing in a log.
///
/// Every answer is to be handled: a program that looks at the records alone goes on as if what is in
/// doubt had never been written. So there is no fourth case to come, and no match needs a `_`.
#[derive(Clone, Copy, Debug, PartialEq, Eq, Hash)]
#[must_use = "it may say that a part of the log is in doubt"]
pub enum Next {
    /// A record, all of whose fragments are sound.
    Record(Record),
    /// A range that is skipped: in doubt, unless its reason is [no loss](Reason::is_loss).
    Skip(Skip),
    /// The log's end: there is nothing after it.
    End(Tail),
}

/// A record, from its first header to its last fragment's end. It is stored as one or more
/// fragments, each a header of 7 bytes and then data, of which none crosses a block's end.
///
/// How it was stored is said in two numbers, of the log that is read, whoever wrote it
/// (`docs/FORMAT.md`, §16). If [`append`](crate::append) wrote the record, and it comes out as
/// written, each fragment but the last goes up to the end of its block, so both can be worked out:
///
/// ```
/// use mellansko::{Answer, Reading, BLOCK};
///
/// // A record of 70,000 bytes, over the ends of two blocks.
/// let mut log = vec![0; 80_000];
/// let mark = mellansko::append(&mut log, 0, b"LW10-1 0.9137")?;
/// let mark = mellansko::append(&mut log, mark, &[7; 70_000])?;
/// let Some(Answer::Record { record, .. }) = Reading::of(&log[..mark])?.nth(1) else {
///     panic!("the record was lost");
/// };
/// assert_eq!((record.fragments, record.last_header), (3, 2 * BLOCK));
///
/// // In its range there are its own bytes, and a header for each fragment.
/// assert_eq!(record.end - record.start, record.length + 7 * record.fragments);
/// // The last fragment starts with its block, unless the record starts after that.
/// let block = (record.end - 1) / BLOCK * BLOCK;
/// assert_eq!(record.last_header, block.max(record.start));
/// # Ok::<(), mellansko::Refusal>(())
/// ```
///
/// Of any other record there may be more and shorter fragments in its range, and zeros of trailers
/// between them.
///
/// There may be more fields in time, so it is made by a call alone:
///
/// ```compile_fail,E0639
/// use mellansko::{Record, Stored};
///
/// let stored = Stored::Whole(7);
/// let record = Record { start: 0, end: 12, length: 5, stored, fragments: 1, last_header: 0 };
/// ```
#[derive(Clone, Copy, Debug, PartialEq, Eq, Hash)]
#[non_exhaustive]
pub struct Record {
    /// Where its first header stands.
    pub start: usize,
    /// Where its last fragment ends, exclusive.
    pub end: usize,
    /// How many bytes the record itself has, without headers.
    pub length: usize,
    /// Where they are.
    pub stored: Stored,
    /// How many fragments it was read from: 1 or more, those without data counted. A call that is
    /// lent the whole log says [`Whole`](Stored::Whole) exactly if there is 1. A
    /// [`Feed`](crate::Feed) says [`Gathered`](Stored::Gathered) of every record, so there this
    /// alone tells whether it stood in one piece.
    pub fragments: usize,
    /// Where the header of the last of them starts. That header and then the fragment's data go up
    /// to `end`. With one fragment it is `start`.
    pub last_header: usize,
}

/// Where a record's bytes are.
#[derive(Clone, Copy, Debug, PartialEq, Eq, Hash)]
pub enum Stored {
    /// In the log, from this place on.
    Whole(usize),
    /// At the front of the buffer, gathered from several fragments.
    Gathered,
}

impl Record {
    /// The record's bytes: a part of the log or of the buffer, never a copy. A gathered record's are
    /// in the buffer until another call is lent it. With slices other than those that it was read
    /// with, they are not its bytes; where they would not lie inside, there are none.
    ///
    /// ```
    /// use mellansko::Next;
    ///
    /// let mut log = [0; 12];
    /// mellansko::append(&mut log, 0, b"LW10-")?;
    /// let mut buffer = [0; 100];
    /// let (Next::Record(record), 12) = mellansko::next(&log, 0, 100, &mut buffer)? else {
    ///     panic!("the record was lost");
    /// };
    /// assert_eq!(record.bytes(&log, &buffer), b"LW10-");
    /// assert_eq!(record.bytes(&log[..11], &buffer), b"");
    /// # Ok::<(), mellansko::Refusal>(())
    /// ```
    #[inline]
    #[must_use]
    pub fn bytes<'a>(&self, log: &'a [u8], buffer: &'a [u8]) -> &'a [u8] {
        let (slice, place) = match self.stored {
            Stored::Whole(place) => (log, place),
            Stored::Gathered => (buffer, 0),
        };
        slice
            .get(place..)
            .and_then(|from| from.get(..self.length))
            .unwrap_or(&log[..0])
    }
}

/// A range that is skipped. Unless its reason is [no loss](Reason::is_loss) it is in doubt: a program
/// that needs all that was written must not go on as if its bytes had never been there.
#[derive(Clone, Copy, Debug, PartialEq, Eq, Hash)]
#[must_use = "a part of the log may be in doubt"]
pub struct Skip {
    /// Where the range starts.
    pub start: usize,
    /// Where it ends, exclusive.
    pub end: usize,
    /// Why it is skipped.
    pub reason: Reason,
}

/// The range and the reason in plain words.
impl fmt::Display for Skip {
    fn fmt(&self, f: &mut fmt::Formatter) -> fmt::Result {
        write!(f, "{} to {}: {}", self.start, self.end, self.reason)
    }
}

/// How a log ends.
#[derive(Clone, Copy, Debug, PartialEq, Eq, Hash)]
#[must_use = "the log's tail may be in doubt"]
pub enum Tail {
    /// Nothing is begun and not finished. A log that was cut between two records ends so too.
    Clean,
    /// The log ends inside of what starts at this place. That may be a record that was being written.
    /// But a damaged length in the last block looks the same, and then records that were written
    /// whole may lie in the tail. It must not be treated as never written, and no record must be
    /// appended after it or over it.
    Torn(usize),
}

/// The end in plain words.
impl fmt::Display for Tail {
    fn fmt(&self, f: &mut fmt::Formatter) -> fmt::Result {
        match self {
            Tail::Clean => write!(f, "clean"),
            Tail::Torn(start) => write!(f, "torn from {start} on"),
        }
    }
}
