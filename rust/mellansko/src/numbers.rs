//! The calls as C has them, whose answers are ten numbers. `include/mellansko.h` says which. The
//! typed calls stand on these, and the comparison with the reference is made on them.
//!
//! An answer is written where the caller wants it and read there, a number at a time. A copy of all
//! ten would be made by loads wider than the call's stores, and each such load waits for several
//! stores to finish: that took longer than all else that the types do.

// The calls into the archive are the crate's only unsafe code.
#![allow(unsafe_code)]

pub mod feed;
mod mend;

pub use mend::mend;

extern "C" {
    fn mellansko_crc32c(checksum: u32, bytes: *const u8, bytes_len: usize) -> u32;
    fn mellansko_mask(crc: u32) -> u32;
    fn mellansko_append(
        log: *mut u8,
        log_len: usize,
        mark: usize,
        record: *const u8,
        record_len: usize,
        answer: *mut u64,
    ) -> u64;
    fn mellansko_next(
        log: *const u8,
        log_len: usize,
        place: usize,
        limit: usize,
        buffer: *mut u8,
        buffer_len: usize,
        answer: *mut u64,
    ) -> u64;
}

/// An answer.
pub type Numbers = [u64; 10];

/// An answer before the call, which writes all of it.
pub(crate) const UNWRITTEN: Numbers = [0; 10];

#[inline]
pub(crate) fn crc32c(checksum: u32, bytes: &[u8]) -> u32 {
    // SAFETY: the call requires nothing, reads the slice alone and keeps nothing of it.
    unsafe { mellansko_crc32c(checksum, bytes.as_ptr(), bytes.len()) }
}

#[inline]
pub(crate) fn mask(crc: u32) -> u32 {
    // SAFETY: the call requires nothing.
    unsafe { mellansko_mask(crc) }
}

/// Writes a record into a log of which the bytes up to the mark are used. Gives the answer's first
/// number, and writes all ten, of which those that a case does not name are 0:
///
/// - accepted: 0, new mark;
/// - refused: 1, number, mark given.
#[inline]
pub fn append(log: &mut [u8], mark: usize, record: &[u8], answer: &mut Numbers) -> u64 {
    // SAFETY: the call requires nothing, reads and writes the three slices alone and keeps nothing
    // of them.
    unsafe {
        mellansko_append(
            log.as_mut_ptr(),
            log.len(),
            mark,
            record.as_ptr(),
            record.len(),
            answer.as_mut_ptr(),
        )
    }
}

/// Reads the next thing in a log from a place on. Gives the answer's first number, and writes all
/// ten, of which those that a case does not name are 0:
///
/// - record: 0, start, end, length, 0 whole or 1 gathered, place of the first data byte if whole,
///   place to go on from, fragments, last header;
/// - skip: 1, start, end, reason, 0, 0, place to go on from;
/// - end: 2, 0 clean or 1 torn, the tail's start if torn, 0, 0, 0, place to go on from;
/// - refused: 3, number, place given.
#[inline]
pub fn next(
    log: &[u8],
    place: usize,
    limit: usize,
    buffer: &mut [u8],
    answer: &mut Numbers,
) -> u64 {
    // SAFETY: as for `append`.
    unsafe {
        mellansko_next(
            log.as_ptr(),
            log.len(),
            place,
            limit,
            buffer.as_mut_ptr(),
            buffer.len(),
            answer.as_mut_ptr(),
        )
    }
}
