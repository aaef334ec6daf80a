//! Records of every small size at every place near a block's end, in slices just long enough; the
//! longest records; and the longest run of fragments in one record.

use super::lent::Lent;
use super::Comparison;
use reference::log::{fragment, Appended, BLOCK, FIRST, FULL, LAST, LONGEST_RECORD, MIDDLE};

pub fn all(c: &mut Comparison) {
    near_a_block_end(c);
    longest_records(c);
    empty_fragments(c);
}

fn near_a_block_end(c: &mut Comparison) {
    let bytes = c.random.bytes(2 * BLOCK);
    let mut log = Lent::new(&bytes, &mut c.random);
    let record = c.random.bytes(24);
    for mark in BLOCK - 20..BLOCK + 2 {
        for length in 0..record.len() {
            just_fits(c, &mut log, mark, &record[..length]);
        }
    }
    let record = c.random.bytes(BLOCK + 10);
    for mark in [0, 1, BLOCK - 8, BLOCK - 7, BLOCK - 6, BLOCK] {
        for length in BLOCK - 20..=BLOCK {
            just_fits(c, &mut log, mark, &record[..length]);
        }
    }
}

/// An append to a slice that is long enough, one that is just so, and one that is a byte too short.
fn just_fits(c: &mut Comparison, log: &mut Lent, mark: usize, record: &[u8]) {
    let length = log.len();
    if let Appended::Mark(end) = c.append(log, mark, record) {
        let mut buffer = c.buffer(record.len());
        c.next(log, mark, record.len(), &mut buffer);
        for lent in [end - 1, end] {
            log.cut(lent);
            c.append(log, mark, record);
            c.next(log, mark, record.len(), &mut buffer);
        }
        log.cut(length);
    }
}

fn longest_records(c: &mut Comparison) {
    let bytes = c.random.bytes(LONGEST_RECORD + 4 * BLOCK);
    let mut log = Lent::new(&bytes, &mut c.random);
    let record = c.random.bytes(LONGEST_RECORD + 1);
    for mark in [0, BLOCK - 7, BLOCK - 6, 2 * BLOCK + 5] {
        c.append(&mut log, mark, &record);
        just_fits(c, &mut log, mark, &record[1..]);
    }
}

/// 140,000 fragments without a byte of data between the first and the last, and over blocks' ends:
/// a record, and one that is interrupted, an empty start if its FIRST is empty as well.
fn empty_fragments(c: &mut Comparison) {
    let middle = fragment(MIDDLE, &[]);
    for (data, last) in [(3, LAST), (0, LAST), (3, FULL), (0, FULL), (0, FIRST)] {
        let mut bytes = fragment(FIRST, &[1, 2, 3][..data]);
        while bytes.len() < 30 * BLOCK {
            match BLOCK - bytes.len() % BLOCK {
                left if left < middle.len() => bytes.resize(bytes.len() + left, 0),
                _ => bytes.extend(&middle),
            }
        }
        bytes.extend(fragment(last, &[4, 5, 6]));
        let log = Lent::new(&bytes, &mut c.random);
        let mut buffer = c.buffer(10);
        for limit in [5, 6] {
            c.next(&log, 0, limit, &mut buffer);
        }
    }
}
