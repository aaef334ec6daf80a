//! Logs of 512 blocks, as many records and skipped ranges as they can have among them. Those of the
//! greatest length are in `longest.rs`.

use crate::both::{Both, MENDED, REFUSED};
use crate::lent::Lent;
use crate::make::record_length;
use reference::log::{append, fragment, Appended, BLOCK, FULL, HEADER, LONGEST_RECORD, MIDDLE};

const BLOCKS: usize = 512;
const LENGTH: usize = BLOCKS * BLOCK;

pub fn all(both: &mut Both) {
    let mut log = Lent::new(&journal(both), &mut both.random);
    let mut fresh = both.lent(LENGTH + 1);
    let mut buffer = both.lent(LONGEST_RECORD);
    // All of it, but not into a byte less; then cut, and damaged.
    for (bad, slice, due) in [
        (LENGTH, LENGTH - 1, REFUSED),
        (LENGTH, LENGTH, MENDED),
        (LENGTH, LENGTH + 1, MENDED),
        (LENGTH - 1, LENGTH, MENDED),
    ] {
        log.cut(bad);
        fresh.cut(slice);
        let answer = both.mend(&log, &mut fresh, LONGEST_RECORD, &mut buffer);
        assert_eq!(answer[0], due, "{bad} into {slice}");
    }
    log.cut(LENGTH);
    fresh.cut(LENGTH);
    for _ in 0..2 {
        let place = both.random.below(LENGTH);
        log.tested_mut()[place] ^= 1;
        log.expected_mut()[place] ^= 1;
        let limit = both.random.below(LONGEST_RECORD);
        both.mend(&log, &mut fresh, limit, &mut buffer);
    }
    many_records(both);
    many_orphans(both);
}

/// Records of all lengths, the last of which fills the log up to its end.
fn journal(both: &mut Both) -> Vec<u8> {
    let mut log = vec![0; LENGTH];
    let mut mark = 0;
    let record = both.random.bytes(LONGEST_RECORD);
    loop {
        let left = LENGTH - mark;
        if left < 2 * BLOCK && BLOCK - mark % BLOCK > 40 {
            let headers = HEADER * left.div_ceil(BLOCK);
            let end = append(&mut log, mark, &record[..left - headers]);
            assert_eq!(end, Appended::Mark(LENGTH));
            return log;
        }
        let length = record_length(&mut both.random, mark, 18).min(LONGEST_RECORD);
        let length = length.min(left.saturating_sub(BLOCK + 100));
        match append(&mut log, mark, &record[..length]) {
            Appended::Mark(new) => mark = new,
            refused => panic!("{refused:?}"),
        }
    }
}

/// As many records as these blocks can have. The last trailer is left out.
fn many_records(both: &mut Both) {
    let log = filled(FULL, 0);
    let bad = Lent::new(&log, &mut both.random);
    for (fresh, due) in [(LENGTH - 1, MENDED), (LENGTH - 2, REFUSED)] {
        assert_eq!(both.with(&bad, fresh, 0, 0)[0], due, "into {fresh}");
    }
}

/// As many skipped ranges of seven bytes; and as many as there can be, with a dirty trailer in each
/// block.
fn many_orphans(both: &mut Both) {
    for trailer in [0, 1] {
        let log = filled(MIDDLE, trailer);
        let bad = Lent::new(&log, &mut both.random);
        both.with(&bad, 0, 0, 0);
    }
}

/// Fragments without data, one after the other; a block then has one byte left, the trailer.
fn filled(kind: u8, trailer: u8) -> Vec<u8> {
    let mut block = fragment(kind, b"").repeat(BLOCK / HEADER);
    block.push(trailer);
    block.repeat(BLOCKS)
}
