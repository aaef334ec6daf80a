//! Every condition of a refusal at its edge and on both sides of it, alone and with others; but for
//! logs that are too long, which are in `longest.rs`.

use super::lent::Lent;
use super::Comparison;
use reference::log::LONGEST_RECORD;

pub fn all(c: &mut Comparison) {
    for length in [0, 1, 6, 7, 8, 100, 32_760, 32_768, 32_775, 40_000] {
        let bytes = c.random.bytes(length);
        let mut log = Lent::new(&bytes, &mut c.random);
        appends(c, &mut log);
        readings(c, &log);
    }
    let mut log = Lent::new(&[0; 40], &mut c.random);
    longest_records(c, &mut log);
    highest_limits(c, &log);
}

fn appends(c: &mut Comparison, log: &mut Lent) {
    let length = log.len();
    let record = c.random.bytes(length + 2);
    for mark in around(length) {
        let room = length.saturating_sub(mark);
        for bytes in around(room.saturating_sub(7)).chain([0, length]) {
            if let Some(record) = record.get(..bytes) {
                c.append(log, mark, record);
            }
        }
    }
}

fn readings(c: &mut Comparison, log: &Lent) {
    let most = log.len().max(100) + 1;
    let mut buffer = c.buffer(most);
    for place in around(log.len()).chain([0]) {
        for limit in [0, 1, 100, log.len(), usize::MAX - 6, usize::MAX] {
            for buffer_length in [0, limit.saturating_sub(1), limit, limit.saturating_add(1)] {
                if buffer_length <= most {
                    buffer.cut(buffer_length);
                    c.next(log, place, limit, &mut buffer);
                }
            }
        }
    }
}

/// Number 3, and the neighbours, for which there is no room.
fn longest_records(c: &mut Comparison, log: &mut Lent) {
    let record = c.random.bytes(LONGEST_RECORD + 2);
    for mark in [0, 33, 34, 40, 41, usize::MAX] {
        for bytes in LONGEST_RECORD - 1..=LONGEST_RECORD + 2 {
            c.append(log, mark, &record[..bytes]);
        }
    }
}

/// Numbers 5 and 6.
fn highest_limits(c: &mut Comparison, log: &Lent) {
    let mut buffer = c.buffer(LONGEST_RECORD + 2);
    for place in [0, 33, 34, 40, 41, usize::MAX] {
        for limit in around(LONGEST_RECORD) {
            for buffer_length in [0, limit - 1, limit, limit.saturating_add(1)] {
                if buffer_length <= LONGEST_RECORD + 2 {
                    buffer.cut(buffer_length);
                    c.next(log, place, limit, &mut buffer);
                }
            }
        }
    }
}

/// A number and its neighbours, and the highest numbers there are.
fn around(number: usize) -> impl Iterator<Item = usize> {
    let from = number.saturating_sub(8);
    (from..=number + 1).chain([usize::MAX - 6, usize::MAX])
}
