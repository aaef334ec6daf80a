//! Why a range is skipped.

use std::fmt;

/// Why a range is skipped. The first three range from a header to the end of the block or of the
/// log, whichever is sooner, since the length may be the damaged part. A dirty trailer ends there
/// too, but has 1 to 6 bytes; every other range has 7 at least. They are ordered by their numbers,
/// and more may come.
#[derive(Clone, Copy, Debug, PartialEq, Eq, PartialOrd, Ord, Hash)]
#[non_exhaustive]
pub enum Reason {
    /// The header's length runs past the end of the block.
    BadLength = 1,
    /// The header's type and length are both 0.
    Blank = 2,
    /// The header's checksum is not that of its type and data.
    Checksum = 3,
    /// A record that is begun and not finished, and no empty start, up to what stands where its next
    /// fragment should, or to a dirty trailer before that. The next answer is for what it goes up to.
    Interrupted = 4,
    /// One fragment, which continues a record that is not begun.
    Orphan = 5,
    /// One fragment, of a type that the format does not have.
    UnknownType = 6,
    /// A record, up to the end of the fragment that takes it above the limit. Sound fragments of it
    /// after that one are orphans.
    OverLimit = 7,
    /// A record that is begun and has no bytes so far, up to a sound fragment that begins a record.
    /// The next answer is for that. Early LevelDB writers began a record again like that, where
    /// exactly 7 bytes were left in a block (`docs/FORMAT.md`, §13). It is [no loss](Reason::is_loss).
    EmptyStart = 8,
    /// A trailer, the up to six bytes that fill up a block where no header fits, that is not all
    /// zeros: up to the end of the block or of the log. In a log that is read from place 0 no record
    /// has a byte in it; something wrote where only zeros belong (`docs/FORMAT.md`, §14).
    DirtyTrailer = 9,
}

impl Reason {
    /// All reasons, in the order of their numbers.
    pub const ALL: &'static [Reason] = &[
        Reason::BadLength,
        Reason::Blank,
        Reason::Checksum,
        Reason::Interrupted,
        Reason::Orphan,
        Reason::UnknownType,
        Reason::OverLimit,
        Reason::EmptyStart,
        Reason::DirtyTrailer,
    ];

    /// The reason's number, from 1 on.
    #[must_use]
    pub fn number(self) -> u8 {
        self as u8
    }

    /// The reason's short name.
    #[must_use]
    pub fn name(self) -> &'static str {
        match self {
            Reason::BadLength => "bad length",
            Reason::Blank => "blank",
            Reason::Checksum => "checksum",
            Reason::Interrupted => "interrupted",
            Reason::Orphan => "orphan",
            Reason::UnknownType => "unknown type",
            Reason::OverLimit => "over the limit",
            Reason::EmptyStart => "empty start",
            Reason::DirtyTrailer => "dirty trailer",
        }
    }

    /// Whether the range is in doubt, since something may be lost there. With an
    /// [empty start](Reason::EmptyStart) nothing is, as far as a reader
    /// [can tell](crate#what-no-reader-of-this-format-can-tell); every other range is in doubt. That
    /// goes for a [dirty trailer](Reason::DirtyTrailer) too: no record has a byte in it, but whatever
    /// wrote there may have done more.
    ///
    /// ```
    /// use mellansko::{Answer, Reading, Reason};
    ///
    /// // An empty start, and then a record of no bytes.
    /// let log = [0x64, 0x51, 0xd0, 0xe9, 0, 0, 2, 0x05, 0x2b, 0x28, 0x43, 0, 0, 1];
    /// for answer in Reading::of(&log)? {
    ///     match answer {
    ///         Answer::Record { record, .. } => assert_eq!((record.start, record.end), (7, 14)),
    ///         Answer::Skip(skip) if skip.reason.is_loss() => panic!("in doubt: {skip}"),
    ///         Answer::Skip(skip) => assert_eq!((skip.start, skip.reason), (0, Reason::EmptyStart)),
    ///         Answer::End(tail) => assert_eq!(tail.to_string(), "clean"),
    ///     }
    /// }
    /// # Ok::<(), mellansko::Refusal>(())
    /// ```
    #[must_use]
    pub fn is_loss(self) -> bool {
        self != Reason::EmptyStart
    }
}

/// The reason in plain words.
///
/// ```
/// use mellansko::Reason;
///
/// assert_eq!(Reason::Orphan.to_string(), "a piece of a record whose beginning is missing");
/// ```
impl fmt::Display for Reason {
    fn fmt(&self, f: &mut fmt::Formatter) -> fmt::Result {
        f.write_str(match self {
            Reason::BadLength => "a stored length runs past the end of its block",
            Reason::Blank => "a header with neither type nor length, as in a stretch of zeros",
            Reason::Checksum => "the stored checksum is not that of the bytes",
            Reason::Interrupted => "a record that breaks off before its last piece",
            Reason::Orphan => "a piece of a record whose beginning is missing",
            Reason::UnknownType => "a piece of a kind that this format does not have",
            Reason::OverLimit => "a record longer than the limit",
            Reason::EmptyStart => {
                "an empty start: a record begun with no bytes, and then begun again"
            }
            Reason::DirtyTrailer => "the bytes that fill up a block are not all zero",
        })
    }
}
