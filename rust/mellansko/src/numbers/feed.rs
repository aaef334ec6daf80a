//! The calls of the reader that is fed in pieces (docs/FORMAT.md, §11.14). Between them there are a
//! state of ten numbers, a block and a buffer, all of which may hold anything.

use super::Numbers;
use crate::BLOCK;

extern "C" {
    fn mellansko_feed_begin(limit: usize, state: *mut u64, answer: *mut u64) -> u64;
    fn mellansko_feed_take(
        state: *mut u64,
        block: *mut u8,
        piece: *const u8,
        piece_len: usize,
        answer: *mut u64,
    ) -> u64;
    fn mellansko_feed_end(state: *mut u64);
    fn mellansko_feed_next(
        state: *mut u64,
        block: *const u8,
        buffer: *mut u8,
        buffer_len: usize,
        answer: *mut u64,
    ) -> u64;
}

/// Limit, place, came, over, opened, start, length, bad, and of the open record fragments and last
/// header.
pub type State = [u64; 10];

/// Which number of a state is which.
pub(crate) const PLACE: usize = 1;
pub(crate) const CAME: usize = 2;
pub(crate) const OPENED: usize = 4;
pub(crate) const START: usize = 5;

/// Makes a state, unless it is refused. Gives the answer's first number, and writes all ten, of
/// which those that a case does not name are 0:
///
/// - begun: 0;
/// - refused: 1, number, 0.
#[inline]
pub fn begin(limit: usize, state: &mut State, answer: &mut Numbers) -> u64 {
    // SAFETY: the call requires nothing, writes the two arrays alone and keeps nothing of them.
    unsafe { mellansko_feed_begin(limit, state.as_mut_ptr(), answer.as_mut_ptr()) }
}

/// Takes as many of a piece's bytes as the block has room for. Gives the answer's first number, and
/// writes all ten, of which those that a case does not name are 0:
///
/// - taken: 0, how many bytes;
/// - refused: 1, number, 0.
#[inline]
pub fn take(state: &mut State, block: &mut [u8; BLOCK], piece: &[u8], answer: &mut Numbers) -> u64 {
    // SAFETY: the call requires nothing, reads and writes the arrays and the slice alone and keeps
    // nothing of them.
    unsafe {
        mellansko_feed_take(
            state.as_mut_ptr(),
            block.as_mut_ptr(),
            piece.as_ptr(),
            piece.len(),
            answer.as_mut_ptr(),
        )
    }
}

/// Announces the log's end.
#[inline]
pub fn end(state: &mut State) {
    // SAFETY: the call requires nothing, reads and writes the array alone and keeps nothing of it.
    unsafe { mellansko_feed_end(state.as_mut_ptr()) }
}

/// Gives the next answer that is certain. Gives its first number, and writes all ten, of which
/// those that a case does not name are 0:
///
/// - record: 0, start, end, length, 1, 0, place to go on from, fragments, last header;
/// - skip: 1, start, end, reason, 0, 0, place to go on from;
/// - end: 2, 0 clean or 1 torn, the tail's start if torn, 0, 0, 0, place to go on from;
/// - refused: 3, number, 0;
/// - nothing more is certain yet: 4.
#[inline]
pub fn next(
    state: &mut State,
    block: &[u8; BLOCK],
    buffer: &mut [u8],
    answer: &mut Numbers,
) -> u64 {
    // SAFETY: as for `take`.
    unsafe {
        mellansko_feed_next(
            state.as_mut_ptr(),
            block.as_ptr(),
            buffer.as_mut_ptr(),
            buffer.len(),
            answer.as_mut_ptr(),
        )
    }
}
