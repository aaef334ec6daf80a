//! Every damage of small logs: each byte changed to each other, each cut, and both.

use crate::promises::hold;
use crate::random::Random;
use reference::log::{append, fragment, Appended, BLOCK, FIRST, FULL, HEADER, LAST, MIDDLE};

/// As the writer makes them and as it does not: records in several fragments, a FIRST with no data
/// in the middle of a block, orphans, empty starts.
fn logs() -> Vec<Vec<u8>> {
    let full = |length| fragment(FULL, &vec![b'f'; length]);
    vec![
        [full(5), full(0), full(13)].concat(),
        [
            fragment(FIRST, b""),
            fragment(LAST, b"one"),
            full(2),
            fragment(FIRST, b""),
            fragment(LAST, b""),
        ]
        .concat(),
        [
            fragment(FIRST, b"a"),
            fragment(MIDDLE, b"b"),
            fragment(MIDDLE, b""),
            fragment(LAST, b"c"),
            full(1),
        ]
        .concat(),
        [
            fragment(MIDDLE, b"orphan"),
            full(3),
            fragment(9, b"unknown"),
            fragment(FIRST, b"open"),
            full(2),
            fragment(LAST, b"late"),
        ]
        .concat(),
        afresh(),
    ]
}

/// Two records that begin afresh after empty starts.
fn afresh() -> Vec<u8> {
    let fragments = [
        fragment(FIRST, b""),
        fragment(FULL, b"ab"),
        fragment(FIRST, b""),
        fragment(MIDDLE, b""),
        fragment(FIRST, b"af"),
        fragment(LAST, b"resh"),
    ];
    fragments.concat()
}

/// An empty start is not counted (§13.5), and is not in the mended log; every byte is counted where
/// it is interrupted by anything else.
#[test]
fn with_empty_starts() {
    let random = &mut Random::new();
    println!("{random}");
    let empty = [fragment(FIRST, b""), fragment(MIDDLE, b"")].concat();
    let begun = [fragment(FIRST, b""), fragment(MIDDLE, b"1")].concat();
    let record = [fragment(FIRST, b"2"), fragment(LAST, b"3")].concat();
    let mut spoilt = record.clone();
    spoilt[7] ^= 1;
    let fresh = fragment(FULL, b"23");
    for (bad, due) in [
        ([&empty, &record], (&fresh[..], 0)),
        ([&empty, &fresh], (&fresh, 0)),
        ([&begun, &record], (&fresh, begun.len())),
        ([&empty, &spoilt], (&[], empty.len() + spoilt.len())),
    ] {
        let (log, skipped) = hold(random, &[&bad[0][..], bad[1]].concat(), 12);
        assert_eq!((&log[..], skipped), due);
    }
}

#[test]
fn with_a_byte_changed() {
    let random = &mut Random::new();
    println!("{random}");
    for log in logs() {
        for place in 0..log.len() {
            for change in 1..=255 {
                let mut bad = log.clone();
                bad[place] ^= change;
                hold(random, &bad, 12);
            }
        }
    }
}

/// At all limits as well: some records are over them.
#[test]
fn cut_and_with_a_byte_changed() {
    let random = &mut Random::new();
    println!("{random}");
    for log in logs() {
        for cut in 0..=log.len() {
            let mut bad = log[..cut].to_vec();
            for limit in 0..=14 {
                hold(random, &bad, limit);
            }
            for place in 0..cut {
                bad[place] ^= 1;
                hold(random, &bad, 12);
                bad[place] ^= 1;
            }
        }
    }
}

/// Around the end of a block, for records that end so many bytes before it: what is there cut and
/// changed, and what is before it changed.
#[test]
fn around_a_blocks_end() {
    let random = &mut Random::new();
    println!("{random}");
    for left in [0, 1, 6, 7, 8, 14, 20] {
        let mut log = vec![0; 2 * BLOCK];
        let mut mark = 0;
        for length in [BLOCK - HEADER - left, 0, 1, 6, 20] {
            let record = random.bytes(length);
            let Appended::Mark(new) = append(&mut log, mark, &record) else {
                panic!("refused");
            };
            mark = new;
        }
        log.truncate(mark);
        for place in (BLOCK - left.max(3)..log.len()).chain([0, 4, 5, 6, 7, 3_000]) {
            hold(random, &log[..place], BLOCK);
            for change in [1, 0x80] {
                let mut bad = log.clone();
                bad[place] ^= change;
                hold(random, &bad, BLOCK);
            }
        }
    }
}
