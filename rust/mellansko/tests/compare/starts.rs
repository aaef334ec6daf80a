//! Logs with one empty start, near a block's end or elsewhere (docs/FORMAT.md, §13).

use super::odd::{spoilt, trailer};
use crate::random::Random;
use reference::log::{fragment, BLOCK, FIRST, FULL, HEADER, MIDDLE};

/// A record that ends some bytes before the end of its block or a small one; an empty FIRST, and
/// empty MIDDLEs or none; a fragment of any type, sound or not; and a last record. Trailers, of
/// zeros or dirty, are where no header fits.
pub fn log(random: &mut Random) -> Vec<u8> {
    let before = match random.below(3) {
        0 => random.below(30),
        _ => BLOCK - HEADER - random.below(4 * HEADER),
    };
    let mut log = fragment(FULL, &random.bytes(before));
    add(random, &mut log, FIRST, 0, false);
    for _ in 0..random.below(4).saturating_sub(1) {
        add(random, &mut log, MIDDLE, 0, false);
    }
    let kinds = [1, 1, 1, 2, 2, 2, 3, 4, 0, 5, 7, 255];
    let kind = kinds[random.below(kinds.len())];
    let data = random.below(3) * random.below(9);
    add(random, &mut log, kind, data, true);
    add(random, &mut log, FULL, 3, false);
    if random.below(8) == 0 {
        log.truncate(log.len() - random.below(20));
    }
    log
}

/// Adds a fragment, which may be spoilt, after a trailer if there has to be one.
fn add(random: &mut Random, log: &mut Vec<u8>, kind: u8, data: usize, may_be_spoilt: bool) {
    let left = BLOCK - log.len() % BLOCK;
    if left < HEADER {
        log.extend(trailer(random, left));
    }
    let room = BLOCK - log.len() % BLOCK - HEADER;
    let sound = fragment(kind, &random.bytes(data.min(room)));
    if may_be_spoilt {
        log.extend(spoilt(random, sound, room, 12));
    } else {
        log.extend(sound);
    }
}
