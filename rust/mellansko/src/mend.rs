//! The records of a damaged log, as a log of their own.

use crate::numbers::{self, UNWRITTEN};
use crate::{meaning, Refusal};

/// What [`mend`] made.
#[derive(Clone, Copy, Debug, PartialEq, Eq, Hash)]
#[must_use = "it says which bytes are the mended log"]
pub struct Mended {
    /// How many bytes the mended log has: the fresh slice's first.
    pub length: usize,
    /// How many bytes of the bad log are in the ranges that were skipped, all together, but for
    /// [empty starts](crate::Reason::EmptyStart), which are [no loss](crate::Reason::is_loss). Those of
    /// a torn tail are not among them, so this may be 0 although something was lost. Those of a
    /// [dirty trailer](crate::Reason::DirtyTrailer) are, though no record has a byte there.
    pub skipped: usize,
}

/// Writes the records of a log, damaged or not, into a fresh slice, as a log that reads as whole:
/// those that a [`Reading`](crate::Reading) of the bad log answers with this limit, in order, as
/// [`append`](crate::append) writes them from mark 0 on.
///
/// A mended log is never longer than the bad one, so a fresh slice of as many bytes has room. What
/// the slice holds makes no difference, and its bytes after the mended log keep their values. The
/// buffer has at least as many bytes as the limit, and gathered records are put to its front in
/// turn.
///
/// Read with the same limit, the mended log answers the same records and a clean end, and skips
/// nothing. So a record may be appended to it at its length. Where the records stand in it, and in
/// how many [fragments](crate::Record::fragments), is as the appends made it, whatever it was in the
/// bad log.
///
/// A mended log does not show that anything was lost, nor where. Where something is missing, though
/// not what, is said by the [`Skip`](crate::Skip)s that are [a loss](crate::Reason::is_loss) and the
/// [`Tail`](crate::Tail) of a reading of the bad log, as far as a reader
/// [can tell](crate#what-no-reader-of-this-format-can-tell). So the bad log is worth keeping.
///
/// ```
/// use mellansko::{mend, Mended, LONGEST_RECORD};
///
/// // A record for each of three blocks.
/// let tables = [1, 2, 3].map(|table| [table; 32_761]);
/// let mut log = vec![0; 3 * 32_768];
/// let mut mark = 0;
/// for table in &tables {
///     mark = mellansko::append(&mut log, mark, table)?;
/// }
/// // A byte of the second one is damaged.
/// log[40_000] ^= 1;
///
/// let mut fresh = vec![0; log.len()];
/// let mut buffer = vec![0; LONGEST_RECORD];
/// let mended = mend(&log, &mut fresh, LONGEST_RECORD, &mut buffer)?;
/// assert_eq!(mended, Mended { length: 2 * 32_768, skipped: 32_768 });
///
/// // That there was a second one, the mended log does not show.
/// let records = mellansko::records(&fresh[..mended.length])?;
/// assert_eq!(records, [&tables[0][..], &tables[2]]);
/// # Ok::<(), Box<dyn std::error::Error>>(())
/// ```
///
/// # Errors
///
/// The first of these [conditions](crate::Condition) that holds, in this order: `LogTooLong`, of
/// the bad log or the fresh slice; `LimitTooHigh`; `BufferTooShort`; `NoRoom`, if the fresh slice
/// has none for all records. Neither the fresh slice nor the buffer has changed then.
pub fn mend(
    bad: &[u8],
    fresh: &mut [u8],
    limit: usize,
    buffer: &mut [u8],
) -> Result<Mended, Refusal> {
    let mut answer = UNWRITTEN;
    let kind = numbers::mend(bad, fresh, limit, buffer, &mut answer);
    meaning::mended(kind, &answer)
}
