//! Damage to a log: by chance, and as if by someone who knows the format.

use super::forge::{end_in_a_trailer, forge, overwrite, start_empty};
use super::make;
use crate::random::Random;
use reference::log::{BLOCK, HEADER};

/// One piece of damage.
pub fn hurt(random: &mut Random, log: &mut Vec<u8>, other: &[u8]) {
    let place = random.below(log.len());
    match random.below(16) {
        0 => log[place] ^= 1 << random.below(8),
        1 => log[place] = random.next() as u8,
        2 => {
            let length = make::any_length(random, 12);
            let bytes = random.bytes(length);
            overwrite(log, place, &bytes);
        }
        3 => overwrite(log, place, &vec![0; make::any_length(random, 16)]),
        4 => {
            let bytes = random.bytes(BLOCK);
            overwrite(log, place / BLOCK * BLOCK, &bytes);
        }
        5 => overwrite(log, place / BLOCK * BLOCK, &[0; BLOCK]),
        6 => other_block(random, log, other),
        7 => overwrite(log, place, other),
        8 => log.truncate(place + 1),
        9 | 10 => start_empty(random, log),
        11 | 12 => end_in_a_trailer(random, log),
        _ => hurt_a_fragment(random, log),
    }
}

/// A whole block of another log, from any of its blocks.
fn other_block(random: &mut Random, log: &mut [u8], other: &[u8]) {
    let blocks: Vec<&[u8]> = other.chunks(BLOCK).collect();
    let block = make::pick(random, &blocks);
    let place = random.below(log.len());
    overwrite(log, place / BLOCK * BLOCK, block);
}

/// Damage to one fragment of a log that may be damaged already.
fn hurt_a_fragment(random: &mut Random, log: &mut [u8]) {
    let headers = make::headers(log);
    if headers.is_empty() {
        return;
    }
    let place = make::pick(random, &headers);
    match random.below(6) {
        // One bit of the header.
        0 => log[place + random.below(HEADER)] ^= 1 << random.below(8),
        // Another length or another type, the checksum as it was.
        1 => log[place + 4] = random.next() as u8,
        2 => log[place + 6] = random.below(7) as u8,
        // Another type or length or both, and a checksum to match.
        3 | 4 => forge(random, log, place, &[0, 1, 2, 3, 4, 5, 129, 255]),
        // A copy of another fragment and what follows it.
        _ => {
            let from = make::pick(random, &headers);
            let copy = log[from..].to_vec();
            overwrite(log, place, &copy[..copy.len().min(BLOCK)]);
        }
    }
}
