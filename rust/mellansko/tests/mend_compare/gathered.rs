//! Several gathered records in one log, longer ones before shorter ones, so that it shows what each
//! leaves in the buffer; with records in between that are whole, interrupted, over the limit or
//! torn, and empty starts, which leave nothing there.

use crate::both::Both;
use crate::lay::{lay, trailers};
use crate::lent::Lent;
use crate::make::pick;
use crate::random::Random;
use reference::log::{fragment, FIRST, FULL, LAST, MIDDLE};

pub fn all(both: &mut Both) {
    for _ in 0..2_000 {
        let log = in_one_block(&mut both.random);
        for limit in [60, 20] {
            both.examine(&log, limit);
        }
    }
    for lengths in [
        [90_000, 70_000, 40_000],
        [40_000, 90_000, 33_000],
        [33_000, 40_000, 90_000],
    ] {
        for limit in [90_000, 89_999, 40_000, 33_000] {
            over_blocks(both, &lengths, limit);
        }
    }
}

/// Records in a few small fragments each, most of them shorter than the one before.
fn in_one_block(random: &mut Random) -> Vec<u8> {
    let mut log = Vec::new();
    let mut most = 64;
    for _ in 0..1 + random.below(6) {
        let length = random.below(most + 1);
        most = pick(random, &[length, length, 64]);
        let record = random.bytes(length);
        match random.below(8) {
            0 => log.extend(fragment(FULL, &record)),
            // Interrupted by what follows, or torn.
            1 => log.extend(fragment(FIRST, &record)),
            2 => {
                log.extend(fragment(FIRST, b""));
                log.extend(fragment(MIDDLE, b"").repeat(random.below(3)));
            }
            _ => in_fragments(random, &mut log, &record),
        }
    }
    if random.below(4) == 0 {
        let cut = random.below(log.len() + 1);
        log.truncate(cut);
    }
    log
}

/// A FIRST, MIDDLEs, and a LAST, any of which may be empty.
fn in_fragments(random: &mut Random, log: &mut Vec<u8>, record: &[u8]) {
    let first = random.below(record.len() + 1);
    let (data, mut rest) = record.split_at(first);
    log.extend(fragment(FIRST, data));
    for _ in 0..random.below(3) {
        let (data, after) = rest.split_at(random.below(rest.len() + 1));
        log.extend(fragment(MIDDLE, data));
        rest = after;
    }
    log.extend(fragment(LAST, rest));
}

/// Long records, each in fragments that leave some of their blocks' bytes to a trailer or to one
/// more fragment.
fn over_blocks(both: &mut Both, lengths: &[usize], limit: usize) {
    let mut log = Vec::new();
    for &length in lengths {
        let record = both.random.bytes(length);
        let random = &mut both.random;
        lay(&mut log, &record, |room| room - random.below(9).min(room));
    }
    both.examine(&log, limit);
    same_buffer_again(both, &log, limit);
    // Where a record is open there, it is not gathered.
    for trailer in trailers(&log) {
        let mut log = log.clone();
        log[trailer.start + both.random.below(trailer.len())] = 1;
        both.examine(&log, limit);
    }
}

/// With one buffer and one fresh slice for several calls, as a caller has them.
fn same_buffer_again(both: &mut Both, log: &[u8], limit: usize) {
    let bad = Lent::new(log, &mut both.random);
    let mut fresh = both.lent(log.len());
    let mut buffer = both.lent(limit + 9);
    for limit in [limit, limit / 2, limit] {
        both.mend(&bad, &mut fresh, limit, &mut buffer);
    }
}
