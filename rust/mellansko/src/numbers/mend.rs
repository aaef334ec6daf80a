//! The call that mends a log (docs/FORMAT.md, §12.10).

use super::Numbers;

extern "C" {
    fn mellansko_mend(
        bad: *const u8,
        bad_len: usize,
        fresh: *mut u8,
        fresh_len: usize,
        limit: usize,
        buffer: *mut u8,
        buffer_len: usize,
        answer: *mut u64,
    ) -> u64;
}

/// Writes the records that a reading of the bad log hands out into the fresh slice, one after the
/// other. Gives the answer's first number, and writes all ten, of which those that a case does not
/// name are 0:
///
/// - mended: 0, length, skipped;
/// - refused: 1, number, 0.
#[inline]
pub fn mend(
    bad: &[u8],
    fresh: &mut [u8],
    limit: usize,
    buffer: &mut [u8],
    answer: &mut Numbers,
) -> u64 {
    // SAFETY: the call requires nothing, reads and writes the four slices alone and keeps nothing
    // of them. Those that it writes are lent to it alone, so nothing overlaps them.
    unsafe {
        mellansko_mend(
            bad.as_ptr(),
            bad.len(),
            fresh.as_mut_ptr(),
            fresh.len(),
            limit,
            buffer.as_mut_ptr(),
            buffer.len(),
            answer.as_mut_ptr(),
        )
    }
}
