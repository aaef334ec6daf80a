//! The examples of docs/FORMAT.md (§16.8).

use crate::fed::written;
use crate::random::Random;
use crate::read::{at, in_pieces, whole, Numbers};
use mellansko::numbers;
use mellansko::{append, mend, Reading, LONGEST_RECORD};
use reference::log::{fragment, FIRST, FULL, LAST, MIDDLE};

#[test]
fn as_ten_words() {
    let log = written(&mut Random::new(), &[1_000, 97_270, 8_000]);
    let mut buffer = vec![0; LONGEST_RECORD];
    let mut place = 0;
    for expected in [
        [0, 0, 1_007, 1_000, 0, 7, 1_007, 1, 0, 0],
        [0, 1_007, 98_298, 97_270, 1, 0, 98_298, 3, 65_536, 0],
        [0, 98_304, 106_311, 8_000, 0, 98_311, 106_311, 1, 98_304, 0],
    ] {
        let mut words = [u64::MAX; 10];
        numbers::next(&log, place, LONGEST_RECORD, &mut buffer, &mut words);
        assert_eq!(words, expected);
        place = words[6] as usize;
    }
}

/// The record that an append of so many bytes makes at a mark.
fn appended(mark: usize, length: usize) -> Numbers {
    let mut log = vec![0; mark + length + 1_000];
    let end = append(&mut log, mark, &vec![7; length]).expect("room");
    at(&log[..end], mark)
}

#[test]
fn of_appends() {
    for (mark, length, [start, end, fragments, last_header]) in [
        (32_761, 0, [32_761, 32_768, 1, 32_761]),
        (32_761, 1, [32_761, 32_776, 2, 32_768]),
        (32_762, 0, [32_768, 32_775, 1, 32_768]),
        (0, 32_761, [0, 32_768, 1, 0]),
        (0, 32_762, [0, 32_776, 2, 32_768]),
        (0, 4_194_304, [0, 4_195_207, 129, 4_194_304]),
    ] {
        let expected = [start, end, length, fragments, last_header];
        assert_eq!(appended(mark, length), expected, "{length} bytes at {mark}");
    }
}

/// The first log of §13.7, and the last of §14.7. In the first the second record starts with a block;
/// mended, it begins in what the empty start took up.
#[test]
fn of_other_writers() {
    let log = [
        fragment(FULL, &[1; 32_754]),
        fragment(FIRST, b""),
        fragment(FULL, &[2; 1_000]),
    ]
    .concat();
    let first = [0, 32_761, 32_754, 1, 0];
    assert_eq!(whole(&log), [first, [32_768, 33_775, 1_000, 1, 32_768]]);
    let mut fresh = vec![0; log.len()];
    let mended = mend(&log, &mut fresh, 40_000, &mut vec![0; 40_000]).expect("room");
    let second = [32_761, 33_775, 1_000, 2, 32_768];
    assert_eq!(whole(&fresh[..mended.length]), [first, second]);

    let [full, open] = [fragment(FULL, &[1; 32_748]), fragment(FIRST, b"")];
    let log = [full, open, vec![0; 6], fragment(LAST, b"")].concat();
    assert_eq!(whole(&log)[1], [32_755, 32_775, 0, 2, 32_768]);
}

/// What breaks off takes its fragments with it, whole and in pieces.
#[test]
fn of_a_record_after_one_that_breaks_off() {
    let log = [
        fragment(FIRST, b"a"),
        fragment(MIDDLE, b""),
        fragment(FIRST, b""),
        fragment(LAST, b""),
    ]
    .concat();
    let words = "ea753d5101000261 336dcde3000003 6451d0e9000002 a716202b000004";
    let bytes: String = log.iter().map(|byte| format!("{byte:02x}")).collect();
    assert_eq!(bytes, words.replace(' ', ""));
    assert_eq!(whole(&log), [[15, 29, 0, 2, 22]]);
    assert_eq!(in_pieces(log.chunks(1), 100), [[15, 29, 0, 2, 22]]);
    assert_eq!(Reading::of(&log).expect("no refusal").count(), 3);
}
