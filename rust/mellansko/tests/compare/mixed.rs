//! Logs made of fragments as no writer puts them: any type after any other, ending anywhere near a
//! block's end, most of them with a right checksum.

use super::odd::{self, kind_after, spoilt, trailer};
use crate::random::Random;
use reference::log::{fragment, BLOCK, HEADER};

/// Fragments up to some length, the last cut off by it. Those in the last block are short ones.
pub fn log(random: &mut Random, length: usize) -> Vec<u8> {
    let mut log = Vec::new();
    let mut kind = odd::NONE;
    while log.len() < length {
        let left = BLOCK - log.len() % BLOCK;
        if left < HEADER {
            log.extend(trailer(random, left));
        } else {
            kind = kind_after(random, kind, left);
            let room = left - HEADER;
            let bytes = match kind.empty {
                true => 0,
                false => data_length(random, room, log.len() + left > length),
            };
            let data = random.bytes(bytes);
            log.extend(spoilt(random, fragment(kind.number, &data), room, 32));
        }
    }
    log.truncate(length);
    log
}

/// None, short, up to near the block's end, or any.
fn data_length(random: &mut Random, room: usize, short: bool) -> usize {
    match random.below(8) {
        0 => 0,
        1..=4 => random.below(room.min(40) + 1),
        _ if short => random.below(room.min(10) + 1),
        5 | 6 => room - random.below(room.min(16) + 1),
        _ => random.below(room + 1),
    }
}
