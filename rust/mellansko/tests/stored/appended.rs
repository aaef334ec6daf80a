//! What can be worked out of a record that an append wrote (§16.5), at every place near a block's end,
//! and of lists of them.

use crate::fed::{piece_length, written};
use crate::random::Random;
use crate::read::{at, in_pieces, whole, Numbers};
use mellansko::{append, BLOCK, LONGEST_RECORD};
use reference::log::HEADER;

/// All that §16.5 says of it, by its span and length.
pub fn is_as_appended([start, end, length, fragments, last_header]: Numbers) {
    let record = format!("{length} bytes from {start} to {end}");
    assert_eq!(end - start - length, HEADER * fragments, "{record}");
    let blocks = (end - 1) / BLOCK - start / BLOCK + 1;
    assert_eq!(fragments, blocks, "{record}");
    let room = BLOCK - start % BLOCK - HEADER;
    let more = length.saturating_sub(room).div_ceil(BLOCK - HEADER);
    assert_eq!(fragments, 1 + more, "{record}");
    let last_block = (end - 1) / BLOCK * BLOCK;
    assert_eq!(last_header, last_block.max(start), "{record}");
}

/// The record is also where the append put it: right at the mark, or after a trailer.
fn appended(log: &mut [u8], mark: usize, record: &[u8]) {
    let end = append(log, mark, record).expect("room");
    let numbers = at(&log[..end], mark);
    is_as_appended(numbers);
    let left = BLOCK - mark % BLOCK;
    let trailer = if left < HEADER { left } else { 0 };
    assert_eq!(numbers[..3], [mark + trailer, end, record.len()]);
}

#[test]
fn near_the_ends_of_blocks() {
    let (mut log, record) = (vec![0xA5; 5 * BLOCK], vec![7; 3 * BLOCK]);
    for mark in BLOCK - 16..=BLOCK + 1 {
        for data in [0, BLOCK - HEADER, 2 * (BLOCK - HEADER)] {
            for length in data.saturating_sub(16)..=data + 16 {
                appended(&mut log, mark, &record[..length]);
            }
        }
    }
}

#[test]
fn one_after_the_other() {
    let mut random = Random::new();
    println!("{random}");
    for _ in 0..20 {
        let lengths: Vec<usize> = (0..10).map(|_| piece_length(&mut random)).collect();
        let log = written(&mut random, &lengths);
        let records = whole(&log);
        records.iter().copied().for_each(is_as_appended);
        assert!(records.iter().map(|record| record[2]).eq(lengths));
        let piece = 1 + random.below(40_000);
        assert_eq!(in_pieces(log.chunks(piece), LONGEST_RECORD), records);
    }
}
