//! The proved calls, with answers of types.

use crate::numbers::{self, UNWRITTEN};
use crate::{meaning, Next, Refusal};

/// Writes a record into a log of which the bytes up to the mark are used, and gives the new mark.
/// The bytes outside the stretch between the two keep their values.
///
/// The first record is appended at mark 0, each later one at the mark that the last one gave. To a
/// log that was read, from a file say, a record is appended at its length, if nothing in it is in
/// doubt, as [`records`](crate::records) shows: all of it reads as records,
/// [empty starts](crate::Reason::EmptyStart) if there are any, and a clean end. If not, begin another
/// log: a record after what is in doubt may be skipped with it, and one over it destroys what may be
/// left there. [`mend`](crate::mend) begins one with the records that are left. What the log holds
/// makes no difference to the call: one at a lower mark writes over records.
///
/// ```
/// let mut log = [0xff; 64];
/// // A record of 5 bytes takes a header of 7 as well.
/// assert_eq!(mellansko::append(&mut log, 0, b"LW10-"), Ok(12));
/// assert_eq!(&log[7..13], b"LW10-\xff");
/// ```
///
/// # Errors
///
/// The first of these [conditions](crate::Condition) that holds: `LogTooLong`, `Outside`,
/// `RecordTooLong`, `NoRoom`.
#[inline]
pub fn append(log: &mut [u8], mark: usize, record: &[u8]) -> Result<usize, Refusal> {
    let mut answer = UNWRITTEN;
    let kind = numbers::append(log, mark, record, &mut answer);
    meaning::append(kind, &answer)
}

/// Reads the next thing in a log from a place on, and gives it with the place to go on from. A record
/// of more bytes than the limit is skipped; the buffer has at least as many. Only a gathered record
/// writes the buffer, and [`Record::bytes`](crate::Record::bytes) then finds it there.
///
/// The first place is 0, each later one that which the last answer gave: at another, a header is read
/// where there may be none. [`Reading`](crate::Reading) makes these calls one after the other.
///
/// ```
/// use mellansko::{Next, Tail};
///
/// let mut buffer = [0; 100];
/// // A log that ends inside a header.
/// let answer = mellansko::next(&[0; 6], 0, 100, &mut buffer);
/// assert_eq!(answer, Ok((Next::End(Tail::Torn(0)), 0)));
/// ```
///
/// # Errors
///
/// The first of these [conditions](crate::Condition) that holds: `LogTooLong`, `Outside`,
/// `LimitTooHigh`, `BufferTooShort`.
#[inline]
pub fn next(
    log: &[u8],
    place: usize,
    limit: usize,
    buffer: &mut [u8],
) -> Result<(Next, usize), Refusal> {
    let mut answer = UNWRITTEN;
    let kind = numbers::next(log, place, limit, buffer, &mut answer);
    meaning::next(kind, &answer)
}

/// Carries on over bytes from the checksum of what came before, and gives the checksum of all of it:
/// a CRC32C. If nothing came before, `checksum` is 0. Over no bytes, `checksum` is given back.
///
/// So bytes can be summed in several goes, wherever they are cut. Each call makes a table before
/// its first byte, so that a few long goes take less time than many short ones.
///
/// ```
/// use mellansko::crc32c;
///
/// assert_eq!(crc32c(0, b"123456789"), 0xe306_9283);
/// assert_eq!(crc32c(crc32c(0, b"1234"), b"56789"), 0xe306_9283);
///
/// let pieces = ["12", "", "345", "6789"].map(str::as_bytes);
/// let sum = pieces.iter().fold(0, |sum, piece| crc32c(sum, piece));
/// assert_eq!(sum, 0xe306_9283);
/// assert_eq!(crc32c(sum, &[]), sum);
/// ```
///
/// A log stores the checksum of a fragment's type byte and then its data, in its
/// [masked form](mask), the lowest byte first. What is carried on from is the checksum, not that
/// form:
///
/// ```
/// use mellansko::{crc32c, mask};
///
/// let mut log = [0; 12];
/// mellansko::append(&mut log, 0, b"LW10-")?;
/// // Type 1 is that of a fragment that holds a whole record.
/// let sum = crc32c(0, &[1]);
/// let sum = crc32c(sum, b"LW10-");
/// assert_eq!(log[..4], mask(sum).to_le_bytes());
/// # Ok::<(), mellansko::Refusal>(())
/// ```
#[inline]
#[must_use]
pub fn crc32c(checksum: u32, bytes: &[u8]) -> u32 {
    numbers::crc32c(checksum, bytes)
}

/// The form in which a log stores a CRC32C.
///
/// ```
/// assert_eq!(mellansko::mask(0), 0xa282_ead8);
/// ```
#[inline]
#[must_use]
pub fn mask(crc: u32) -> u32 {
    numbers::mask(crc)
}
