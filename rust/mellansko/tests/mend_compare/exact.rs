//! Fresh slices that are just long enough, a little longer and too short, for records that end at
//! and next to the end of a block, in the bad log and in the mended one.

use crate::both::Both;
use crate::lay::lay;
use crate::lent::Lent;
use reference::log::{fragment, BLOCK, FIRST, FULL, HEADER, MIDDLE};

pub fn all(both: &mut Both) {
    // Something that is skipped, so that the two logs' blocks end elsewhere: nothing, orphans, an
    // empty start, and a whole block of zeros.
    let orphans = [0, 1, 6].map(|length| fragment(MIDDLE, &vec![0xEE; length]));
    let [one, two, three] = orphans;
    let start = fragment(FIRST, b"");
    let skipped = [vec![], one, two, three, start, vec![0; BLOCK]];
    for left in (0..16).chain([20, 30]) {
        for length in [0, 1, 6, 7, left, left + 8] {
            for before in &skipped {
                two_records(both, before, left, length);
            }
        }
    }
    for left in 0..HEADER {
        for trailer in 0..=left {
            in_a_trailer(both, left, trailer);
        }
    }
}

/// A record that ends so many bytes before the end of a block in the mended log, and one of this
/// length after it: as the writer puts them, or in more fragments than it takes.
fn two_records(both: &mut Both, before: &[u8], left: usize, length: usize) {
    let parts = 1 + both.random.below(2);
    let mut log = before.to_vec();
    for record in [vec![1; BLOCK - HEADER - left], vec![2; length]] {
        lay(&mut log, &record, |room| room.div_ceil(parts));
    }
    let bad = Lent::new(&log, &mut both.random);
    let limit = BLOCK;
    let [_, mended, ..] = both.with(&bad, log.len(), limit, limit);
    let mended = mended as usize;
    for fresh in [mended - 1, mended, mended + 1, mended + 7] {
        both.with(&bad, fresh, limit, limit);
    }
    // Neither fits, or the first alone does, or with the trailer after it.
    if left == length {
        let first = BLOCK - left;
        for fresh in [first - 1, first, first + left] {
            both.with(&bad, fresh, limit, limit);
        }
    }
}

/// A log that ends in a trailer or right after it, with a record before it, one that is open or a
/// skipped range.
fn in_a_trailer(both: &mut Both, left: usize, trailer: usize) {
    for kind in [FULL, FIRST, MIDDLE] {
        let log = fragment(kind, &vec![1; BLOCK - HEADER - left]);
        for trailer in [vec![0; trailer], both.random.bytes(trailer)] {
            both.examine(&[&log[..], &trailer].concat(), BLOCK);
        }
    }
}
