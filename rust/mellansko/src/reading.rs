//! A log read from its first byte to its end.

use crate::numbers::{self, Numbers, UNWRITTEN};
use crate::{meaning, next, Condition, Next, Record, Refusal, Skip, Stored, Tail, LONGEST_RECORD};
use std::borrow::Cow;
use std::fmt;
use std::iter::FusedIterator;

/// The answers of a log from place 0 on, in order; the last is its end. Their ranges lie one after
/// the other, with at most a trailer of up to six zeros between two.
///
/// As an iterator it hands out records with bytes of their own where they had to be gathered;
/// [`advance`](Reading::advance) lends them instead. A program that can only use a log in which
/// nothing is in doubt takes [`records`](crate::records).
///
/// ```
/// use mellansko::{Answer, Reading, Tail};
///
/// // A record, and then a log that ends inside a header.
/// let mut log = [0; 15];
/// mellansko::append(&mut log, 0, b"LW10-")?;
/// let (mut records, mut skips, mut torn) = (0, 0, None);
/// for answer in Reading::of(&log)? {
///     match answer {
///         Answer::Record { .. } => records += 1,
///         Answer::Skip(_) => skips += 1,
///         Answer::End(Tail::Clean) => {}
///         Answer::End(Tail::Torn(start)) => torn = Some(start),
///     }
/// }
/// assert_eq!((records, skips, torn), (1, 0, Some(12)));
/// # Ok::<(), mellansko::Refusal>(())
/// ```
#[must_use = "nothing is read before an answer is asked for"]
pub struct Reading<'log> {
    log: &'log [u8],
    /// As it was given. The calls get the buffer's length.
    limit: usize,
    place: usize,
    buffer: Vec<u8>,
    /// The last answer's numbers, kept so that no call needs new ones.
    answer: Numbers,
    ended: bool,
}

/// What a [`Reading`] gives, and what a [`Feed`](crate::Feed) does.
///
/// As with [`Next`], every answer is to be handled. A match that leaves one out does not compile:
///
/// ```compile_fail,E0004
/// use mellansko::{Answer, Reading};
///
/// for answer in Reading::of(&[])? {
///     match answer {
///         Answer::Record { bytes, .. } => println!("{bytes:?}"),
///         Answer::End(tail) => println!("{tail}"),
///     }
/// }
/// # Ok::<(), mellansko::Refusal>(())
/// ```
#[derive(Clone, Debug, PartialEq, Eq, Hash)]
#[must_use = "it may say that a part of the log is in doubt"]
pub enum Answer<'a> {
    /// A record, all of whose fragments are sound.
    Record {
        /// Where it stands.
        record: Record,
        /// What it is.
        bytes: Cow<'a, [u8]>,
    },
    /// A range that is skipped: in doubt, unless its reason is [no loss](crate::Reason::is_loss).
    Skip(Skip),
    /// The log's end, which is the last answer.
    End(Tail),
}

impl<'log> Reading<'log> {
    /// Reads a log with the highest limit there is on a record's length, [`LONGEST_RECORD`].
    ///
    /// # Errors
    ///
    /// The [condition](crate::Condition) `LogTooLong`.
    pub fn of(log: &'log [u8]) -> Result<Reading<'log>, Refusal> {
        Reading::with_limit(log, LONGEST_RECORD)
    }

    /// Reads a log and skips records of more bytes than the limit. The buffer for records that lie in
    /// several fragments has as many bytes as the limit, or as the log if that has fewer.
    ///
    /// ```
    /// use mellansko::{Condition, Reading, LONGEST_RECORD};
    ///
    /// let refusal = Reading::with_limit(&[], LONGEST_RECORD + 1).unwrap_err();
    /// assert_eq!(refusal.condition, Condition::LimitTooHigh);
    /// ```
    ///
    /// # Errors
    ///
    /// The first of these [conditions](crate::Condition) that holds: `LogTooLong`, `LimitTooHigh`.
    pub fn with_limit(log: &'log [u8], limit: usize) -> Result<Reading<'log>, Refusal> {
        // What is refused at the log's end, with nothing to read, is refused at every place; what is
        // not, at none. That there is no buffer yet is judged last.
        match next(log, log.len(), limit, &mut []) {
            Err(refusal) if refusal.condition != Condition::BufferTooShort => {
                let given = 0;
                return Err(Refusal { given, ..refusal });
            }
            _ => {}
        }
        Ok(Reading {
            log,
            limit,
            place: 0,
            // No record has more bytes than its log: a limit of as many skips none that a higher one
            // would not. Of a short log, the buffer of the highest would take longer than reading.
            buffer: vec![0; limit.min(log.len())],
            answer: UNWRITTEN,
            ended: false,
        })
    }

    /// The place to go on from: every byte before it has been answered for, or is a zero of a trailer.
    #[inline]
    #[must_use]
    pub fn place(&self) -> usize {
        self.place
    }

    /// The next answer, with the bytes of a record lent until the next call: nothing is copied but
    /// into the one buffer. After the end there is none.
    ///
    /// ```
    /// use mellansko::{Answer, Reading, Tail};
    ///
    /// // Two records of 40,000 bytes, each of which runs across a block's end.
    /// let mut log = vec![0; 81_000];
    /// let mark = mellansko::append(&mut log, 0, &[1; 40_000])?;
    /// let mark = mellansko::append(&mut log, mark, &[2; 40_000])?;
    /// let mut reading = Reading::of(&log[..mark])?;
    /// let mut sum = 0;
    /// while let Some(answer) = reading.advance() {
    ///     match answer {
    ///         Answer::Record { bytes, .. } => bytes.iter().for_each(|&byte| sum += u32::from(byte)),
    ///         Answer::Skip(skip) if skip.reason.is_loss() => panic!("the sum would be of a part: {skip}"),
    ///         Answer::Skip(_) => {}
    ///         Answer::End(Tail::Clean) => {}
    ///         Answer::End(tail) => panic!("the sum would be of a part: {tail}"),
    ///     }
    /// }
    /// assert_eq!(sum, 120_000);
    /// # Ok::<(), mellansko::Refusal>(())
    /// ```
    ///
    /// An answer is not to be dropped:
    ///
    /// ```compile_fail
    /// #![deny(unused_must_use)]
    /// mellansko::Reading::of(&[])?.advance();
    /// # Ok::<(), mellansko::Refusal>(())
    /// ```
    #[must_use = "it may say that a part of the log is in doubt"]
    #[inline]
    pub fn advance(&mut self) -> Option<Answer<'_>> {
        let next = self.step()?;
        Some(Answer::new(next, |record| {
            Cow::Borrowed(record.bytes(self.log, &self.buffer))
        }))
    }

    // Otherwise one copy of it is kept for both ways, whose answer is moved by way of memory.
    #[inline(always)]
    fn step(&mut self) -> Option<Next> {
        if self.ended {
            return None;
        }
        let (buffer, answer) = (&mut self.buffer, &mut self.answer);
        let kind = numbers::next(self.log, self.place, buffer.len(), buffer, answer);
        let next = meaning::next(kind, answer);
        let (next, place) = next.expect("no refusal, as at the beginning");
        self.place = place;
        self.ended = matches!(next, Next::End(_));
        Some(next)
    }
}

impl<'log> Iterator for Reading<'log> {
    type Item = Answer<'log>;

    #[inline]
    fn next(&mut self) -> Option<Answer<'log>> {
        let next = self.step()?;
        Some(Answer::new(next, |record| match record.stored {
            Stored::Whole(_) => Cow::Borrowed(record.bytes(self.log, &[])),
            Stored::Gathered => Cow::Owned(record.bytes(&[], &self.buffer).to_vec()),
        }))
    }
}

impl FusedIterator for Reading<'_> {}

/// Without the log's bytes, which may be many.
impl fmt::Debug for Reading<'_> {
    fn fmt(&self, f: &mut fmt::Formatter) -> fmt::Result {
        f.debug_struct("Reading")
            .field("place", &self.place)
            .field("limit", &self.limit)
            .field("ended", &self.ended)
            .finish_non_exhaustive()
    }
}

impl<'a> Answer<'a> {
    /// The same answer, with bytes of its own if it is a record: a copy, unless they are already.
    ///
    /// ```
    /// use mellansko::{Answer, Feed};
    ///
    /// # let mut log = [0; 20];
    /// # mellansko::append(&mut log, 0, b"LW10-1 0.9137")?;
    /// let mut feed = Feed::new();
    /// assert_eq!(feed.take(&log)?, log.len());
    /// let kept: Option<Answer<'static>> = feed.advance().map(Answer::into_owned);
    /// # assert!(matches!(kept, Some(Answer::Record { .. })));
    /// # Ok::<(), mellansko::Refusal>(())
    /// ```
    pub fn into_owned(self) -> Answer<'static> {
        match self {
            Answer::Record { record, bytes } => Answer::Record {
                record,
                bytes: Cow::Owned(bytes.into_owned()),
            },
            Answer::Skip(skip) => Answer::Skip(skip),
            Answer::End(tail) => Answer::End(tail),
        }
    }

    #[inline]
    pub(crate) fn new(next: Next, bytes: impl FnOnce(&Record) -> Cow<'a, [u8]>) -> Answer<'a> {
        match next {
            Next::Record(record) => Answer::Record {
                record,
                bytes: bytes(&record),
            },
            Next::Skip(skip) => Answer::Skip(skip),
            Next::End(tail) => Answer::End(tail),
        }
    }
}
