//! The strict way: all records of a log, or what is in doubt.

use crate::{Answer, Reading, Refusal, Skip, Tail, LONGEST_RECORD};
use std::borrow::Cow;
use std::error::Error;
use std::fmt;

/// All records of a log that is whole, in order: of one that reads with a clean end and no skip, but
/// for [empty starts](crate::Reason::EmptyStart). If anything in it is in doubt there are none, and the
/// error says what. It is for a program that can't use a part of what was written, as one that loads a
/// table.
///
/// To a log that is whole a record can be appended, at its length.
///
/// A record of one fragment is borrowed from the log; any other is a copy. So of a log of long records
/// this takes about as much memory again, and of one of very many short ones more than the log, for the
/// list; and of one with very many ranges in doubt for the list of these. [`Reading::advance`] goes from
/// answer to answer instead.
///
/// This is no proof that nothing is missing. No reader of this format can tell that a log was cut
/// exactly between two records; that blocks were left out, are there twice, or were replaced by
/// other sound ones; or that bytes were made with a right checksum
/// ([more on this](crate#what-no-reader-of-this-format-can-tell)).
///
/// ```
/// let mut log = [0; 64];
/// let mark = mellansko::append(&mut log, 0, b"LW10-1 0.9137")?;
/// let mark = mellansko::append(&mut log, mark, b"LW11 0.8412")?;
/// let records = mellansko::records(&log[..mark])?;
/// assert_eq!(records, [&b"LW10-1 0.9137"[..], b"LW11 0.8412"]);
///
/// // Cut inside its second record, it is not whole, and its first one is not handed out either.
/// let error = mellansko::records(&log[..mark - 1]).unwrap_err();
/// assert_eq!(error.to_string(), "the log is torn from 20 on");
/// # Ok::<(), Box<dyn std::error::Error>>(())
/// ```
///
/// With an empty start, as early LevelDB writers left them, a log is whole too:
///
/// ```
/// let mut log = vec![0; 40_000];
/// // Of the block 7 bytes are left, and a record is begun there with none of its own.
/// let mark = mellansko::append(&mut log, 0, &[1; 32_754])?;
/// log[mark..mark + 7].copy_from_slice(&[0x64, 0x51, 0xd0, 0xe9, 0, 0, 2]);
/// // In the next block it is begun again.
/// let mark = mellansko::append(&mut log, mark + 7, b"LW11 0.8412")?;
/// let records = mellansko::records(&log[..mark])?;
/// assert_eq!(records, [&[1; 32_754][..], b"LW11 0.8412"]);
/// # Ok::<(), Box<dyn std::error::Error>>(())
/// ```
///
/// # Errors
///
/// [`NotWhole::Refused`] if the log has more than [`LONGEST_LOG`](crate::LONGEST_LOG) bytes, and
/// [`NotWhole::InDoubt`] if a range of it is skipped that is no empty start, or its tail is torn.
pub fn records(log: &[u8]) -> Result<Vec<Cow<'_, [u8]>>, NotWhole> {
    records_with_limit(log, LONGEST_RECORD)
}

/// The same, where a record of more bytes than the limit is in doubt.
///
/// ```
/// use mellansko::{NotWhole, Reason};
///
/// let mut log = [0; 20];
/// mellansko::append(&mut log, 0, b"LW10-1 0.9137")?;
/// assert_eq!(mellansko::records_with_limit(&log, 13)?.len(), 1);
/// let Err(NotWhole::InDoubt(doubt)) = mellansko::records_with_limit(&log, 12) else {
///     panic!("the record is longer than the limit");
/// };
/// assert_eq!(doubt.skips[0].reason, Reason::OverLimit);
/// # Ok::<(), Box<dyn std::error::Error>>(())
/// ```
///
/// # Errors
///
/// Those of [`records`], and [`NotWhole::Refused`] if the limit is above [`LONGEST_RECORD`].
pub fn records_with_limit(log: &[u8], limit: usize) -> Result<Vec<Cow<'_, [u8]>>, NotWhole> {
    let (mut records, mut skips) = (Vec::new(), Vec::new());
    for answer in Reading::with_limit(log, limit)? {
        match answer {
            Answer::Record { bytes, .. } if skips.is_empty() => records.push(bytes),
            Answer::Skip(skip) if skip.reason.is_loss() => {
                // None is handed out any more, and they may be many bytes.
                records = Vec::new();
                skips.push(skip);
            }
            Answer::Record { .. } | Answer::Skip(_) => {}
            Answer::End(Tail::Clean) if skips.is_empty() => return Ok(records),
            Answer::End(tail) => return Err(NotWhole::InDoubt(Doubt { skips, tail })),
        }
    }
    unreachable!("the last answer is the end");
}

/// Why there are no [`records`].
#[derive(Clone, Debug, PartialEq, Eq, Hash)]
#[must_use = "the log is not whole"]
pub enum NotWhole {
    /// The log was not read at all.
    Refused(Refusal),
    /// The log was read to its end, and a part of it can't be trusted.
    InDoubt(Doubt),
}

/// All that is in doubt in a log that is not whole: a range at least, or the tail.
#[derive(Clone, Debug, PartialEq, Eq, Hash)]
#[non_exhaustive]
#[must_use = "a part of the log is in doubt"]
pub struct Doubt {
    /// Every range in doubt, in order. An [empty start](crate::Reason::EmptyStart) is skipped too, but
    /// is [no loss](crate::Reason::is_loss): it is not among them.
    pub skips: Vec<Skip>,
    /// How the log ends. If [torn](Tail::Torn), all from there on is in doubt as well.
    pub tail: Tail,
}

impl From<Refusal> for NotWhole {
    fn from(refusal: Refusal) -> NotWhole {
        NotWhole::Refused(refusal)
    }
}

/// In plain words, on one line.
impl fmt::Display for NotWhole {
    fn fmt(&self, f: &mut fmt::Formatter) -> fmt::Result {
        match self {
            NotWhole::Refused(refusal) => write!(f, "the log was not read: {refusal}"),
            NotWhole::InDoubt(doubt) => write!(f, "the log is {doubt}"),
        }
    }
}

/// The first range in doubt, how many more there are, and the torn tail. A log may have very many.
impl fmt::Display for Doubt {
    fn fmt(&self, f: &mut fmt::Formatter) -> fmt::Result {
        let mut parts = Vec::new();
        if let Some(first) = self.skips.first() {
            parts.push(format!("in doubt from {first}"));
        }
        match self.skips.len().saturating_sub(1) {
            0 => {}
            1 => parts.push("in doubt in 1 more range".into()),
            more => parts.push(format!("in doubt in {more} more ranges")),
        }
        if let Tail::Torn(_) = self.tail {
            parts.push(self.tail.to_string());
        }
        f.write_str(&parts.join("; "))
    }
}

impl Error for NotWhole {}
