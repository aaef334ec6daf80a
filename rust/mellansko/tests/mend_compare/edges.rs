//! Every condition of a refusal at its edge and on both sides of it, alone and with others (§12.5);
//! but for logs that are too long, which are in `longest.rs`.

use crate::both::Both;
use crate::lent::Lent;
use reference::log::{fragment, FIRST, FULL, LAST, LONGEST_RECORD};

pub fn all(both: &mut Both) {
    let log = log();
    short_slices(both, &log);
    high_limits(both, &log);
}

/// A whole record, an orphan, a gathered record, and one that is whole again.
fn log() -> Vec<u8> {
    [
        fragment(FULL, b"LW10-1 0.9137"),
        fragment(LAST, b"of none"),
        fragment(FIRST, b"LW11"),
        fragment(LAST, b" 0.8412"),
        fragment(FULL, b"LW12"),
    ]
    .concat()
}

/// Numbers 5, 6 and 4, and no refusal: limits and buffers around all that matters, and fresh slices
/// of each length up to the log's.
fn short_slices(both: &mut Both, log: &[u8]) {
    let bad = Lent::new(log, &mut both.random);
    for limit in [0, 3, 4, 10, 11, 12, 13, 14] {
        for buffer in around(limit).chain([0]) {
            for fresh in 0..=log.len() {
                both.with(&bad, fresh, limit, buffer);
            }
        }
    }
}

/// The same at the highest limit there is, and above it.
fn high_limits(both: &mut Both, log: &[u8]) {
    let bad = Lent::new(log, &mut both.random);
    let mut lent = both.lent(LONGEST_RECORD + 2);
    let high = [usize::MAX / 2, usize::MAX - 6, usize::MAX];
    for limit in around(LONGEST_RECORD).chain(high) {
        for buffer in around(limit).chain(around(LONGEST_RECORD)).chain([0, 13]) {
            if buffer > LONGEST_RECORD + 2 {
                continue;
            }
            lent.cut(buffer);
            // The first record takes 20 bytes, and all of them take 49.
            for fresh in [0, 19, 20, 48, 49, log.len()] {
                let mut fresh = both.lent(fresh);
                both.mend(&bad, &mut fresh, limit, &mut lent);
            }
        }
    }
}

/// A number and its neighbours.
fn around(number: usize) -> impl Iterator<Item = usize> {
    number.saturating_sub(1)..=number.saturating_add(1)
}
