//! Both readers say the same of a small log, wherever it is cut off, and wherever it is cut into
//! pieces. A fed reader that forgets what it has of an open record when a piece ends, or counts it
//! twice, says something else.

use crate::laid::Laid;
use crate::read::{in_pieces, whole};
use mellansko::BLOCK;
use reference::log::{fragment, FIRST, FULL, HEADER, LAST, MIDDLE};

/// Records of one fragment and of several, and others that break off.
fn small() -> Vec<u8> {
    let parts = [
        (FULL, "LW"),
        (FIRST, "0"),
        (MIDDLE, ""),
        (MIDDLE, ".91"),
        (LAST, "37"),
        (FIRST, "broken"),
        (MIDDLE, "off"),
        (FIRST, ""),
        (LAST, ""),
        (FULL, ""),
    ];
    let parts = parts.map(|(kind, data)| fragment(kind, data.as_bytes()));
    parts.concat()
}

/// Both say the same of a log, which is fed in two pieces, cut at each place from this one on.
fn same(log: &[u8], from: usize) {
    let records = whole(log);
    for cut in from..=log.len() {
        let (first, second) = log.split_at(cut);
        let fed = in_pieces([first, second], BLOCK);
        assert_eq!(fed, records, "{} bytes, cut at {cut}", log.len());
    }
}

/// All of its beginnings, and all of it byte by byte.
#[test]
fn of_a_small_log() {
    let log = small();
    for length in 0..=log.len() {
        same(&log[..length], 0);
    }
    let records = [
        [0, 9, 2, 1, 0],
        [9, 43, 6, 4, 34],
        [66, 80, 0, 2, 73],
        [80, 87, 0, 1, 80],
    ];
    assert_eq!(whole(&log), records);
    assert_eq!(in_pieces(log.chunks(1), 100), records);
}

/// A record of four fragments, of which two or three are in its first block, with a trailer after them
/// or not.
#[test]
fn over_the_end_of_a_block() {
    for left in 0..2 * HEADER {
        let before = BLOCK - left - 2 * HEADER - 3;
        let mut laid = Laid::default();
        laid.fragment(FULL, before - HEADER);
        let start = laid.fragment(FIRST, 3);
        laid.fragment(MIDDLE, 0);
        laid.fragment(MIDDLE, 0);
        let last = laid.fragment(LAST, 1);
        let log = laid.log;
        for length in [log.len() - 1, log.len()] {
            same(&log[..length], start);
        }
        let record = [start, log.len(), 4, 4, last];
        assert_eq!(whole(&log)[1], record, "{left} left after two");
    }
}
