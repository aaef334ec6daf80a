//! Fragments as no writer puts them.

use crate::random::Random;
use reference::log::{FIRST, FULL, HEADER, LAST, MIDDLE};

/// A fragment's type, and whether it is one without data of an empty start (docs/FORMAT.md, §13).
#[derive(Clone, Copy)]
pub struct Kind {
    pub number: u8,
    pub empty: bool,
}

/// Before the first fragment.
pub const NONE: Kind = some(FULL);

const fn some(number: u8) -> Kind {
    let empty = false;
    Kind { number, empty }
}

const fn none(number: u8) -> Kind {
    let empty = true;
    Kind { number, empty }
}

/// Mostly a type that a writer would go on with, so that records get long; else any; and now and
/// then the beginning of an empty start, most of all where few bytes of the block are left.
pub fn kind_after(random: &mut Random, last: Kind, left: usize) -> Kind {
    if last.empty {
        return after_empty(random);
    }
    let one_in = if left < 3 * HEADER { 2 } else { 5 };
    if random.below(one_in) == 0 {
        return none(FIRST);
    }
    let kinds: &[u8] = match (random.below(8), last.number) {
        (0, _) => &[0, 5, 6, 128, 255],
        (1 | 2, _) => &[FULL, FIRST, MIDDLE, LAST],
        (_, FIRST | MIDDLE) => &[MIDDLE, MIDDLE, LAST],
        _ => &[FULL, FIRST, FIRST],
    };
    some(kinds[random.below(kinds.len())])
}

/// Mostly what makes an empty start of it; else more of it, what a writer would go on with, or any
/// other type.
fn after_empty(random: &mut Random) -> Kind {
    let kinds: &[u8] = match random.below(8) {
        0 => return none(MIDDLE),
        1 => &[MIDDLE, LAST],
        2 | 3 => &[0, 5, 6, 128, 255],
        _ => &[FULL, FIRST],
    };
    some(kinds[random.below(kinds.len())])
}

/// A trailer: zeros, as a writer leaves it, or dirty (docs/FORMAT.md, §14), in all bytes or in one.
pub fn trailer(random: &mut Random, bytes: usize) -> Vec<u8> {
    let mut trailer = vec![0; bytes];
    match random.below(4) {
        0 => trailer = random.bytes(bytes),
        1 => trailer[random.below(bytes)] = 1 << random.below(8),
        _ => {}
    }
    trailer
}

/// Mostly the fragment as it is: three in so many are spoilt.
pub fn spoilt(random: &mut Random, mut fragment: Vec<u8>, room: usize, many: usize) -> Vec<u8> {
    match random.below(many) {
        // A wrong checksum, somewhere.
        0 => {
            let place = random.below(fragment.len());
            fragment[place] ^= 1 << random.below(8);
        }
        // A length that is too long, by a little or by much.
        1 => {
            let scale = 1 << random.below(16);
            let long = (room + 1 + random.below(scale)).min(0xFFFF) as u16;
            fragment[4..6].copy_from_slice(&long.to_le_bytes());
        }
        // Blank, with any checksum.
        2 => fragment[4..HEADER].fill(0),
        _ => {}
    }
    fragment
}
