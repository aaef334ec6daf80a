//! Bytes that come (§11.5).

use super::{fits, Block, State};
use crate::log::{BLOCK, LONGEST_LOG};

/// Takes the piece's first bytes, as many as the place's block has room for, and answers how many;
/// or refuses with a number and changes nothing.
pub fn take(state: &mut State, block: &mut Block, piece: &[u8]) -> Result<usize, u8> {
    if let Some(number) = refusal(state, piece.len()) {
        return Err(number);
    }
    let came = state.came as usize;
    let room = (state.place as usize / BLOCK + 1) * BLOCK - came;
    let taken = room.min(piece.len());
    // They end with the block at the latest, so they are in a row there.
    let o = came % BLOCK;
    block[o..o + taken].copy_from_slice(&piece[..taken]);
    state.came += taken as u64;
    Ok(taken)
}

/// The column "take" of §11.11, lowest number first. Number 1 is for the piece as it is offered.
fn refusal(state: &State, piece: usize) -> Option<u8> {
    if u128::from(state.came) + piece as u128 > LONGEST_LOG as u128 {
        return Some(1);
    }
    if !fits(state) {
        return Some(2);
    }
    if state.over == 1 {
        return Some(20);
    }
    None
}
