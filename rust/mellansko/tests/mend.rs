//! Mending: the examples of docs/FORMAT.md (§12.9, §13.7), the samples, and the refusals. Random and
//! damaged logs are in `typed.rs`.

mod expected;
mod mended;

use mellansko::numbers::{self, Numbers};
use mellansko::{mend, records};
use mended::mended;
use reference::log::{self, append, fragment, Appended, BLOCK, LONGEST_LOG, LONGEST_RECORD};
use reference::log::{FIRST, FULL, LAST, MIDDLE};
use std::collections::BTreeSet;

/// The log of these records, in order.
fn written(records: &[&[u8]]) -> Vec<u8> {
    let mut log = vec![0; 200_000];
    let mut mark = 0;
    for record in records {
        let Appended::Mark(end) = append(&mut log, mark, record) else {
            panic!("no room");
        };
        mark = end;
    }
    log.truncate(mark);
    log
}

/// The log of §9.1.
fn two_records() -> Vec<u8> {
    written(&[b"LW10-1 0.9137", b"LW11 0.8412"])
}

/// The mended log, out of a slice as long as the bad one.
fn made(bad: &[u8], limit: usize) -> (Vec<u8>, usize) {
    let mut fresh = vec![0x5A; bad.len()];
    let mended = mend(bad, &mut fresh, limit, &mut vec![0; limit]).expect("no refusal");
    fresh.truncate(mended.length);
    (fresh, mended.skipped)
}

#[test]
fn of_the_examples() {
    let [a, b, c] = [(1_000, 1), (97_270, 2), (8_000, 3)].map(|(length, byte)| vec![byte; length]);
    let log = written(&[&a, &b, &c]);
    assert_eq!(log.len(), 106_311);
    assert!(made(&log, LONGEST_RECORD) == (log.clone(), 0));
    let before = log[..98_298].to_vec();
    assert!(made(&log[..106_310], LONGEST_RECORD) == (before, 0));
    let mut damaged = log;
    damaged[40_000] ^= 1;
    let (fresh, skipped) = made(&damaged, LONGEST_RECORD);
    assert_eq!((fresh.len(), skipped), (9_014, 97_291));
    assert!(fresh == written(&[&a, &c]));

    let log = two_records();
    assert_eq!(made(&log, 12), (log[20..].to_vec(), 20));
    let mut fresh = [0; 17];
    let refused = mend(&log, &mut fresh, 12, &mut [0; 12]).unwrap_err();
    let (number, given) = (4, 0);
    let expected = log::Next::Refused { number, given };
    assert_eq!(expected::refused(refused), expected);
    let words = "the log has no room for what is to be written from mark 0 on";
    assert_eq!(refused.to_string(), words);
}

/// Nothing is lost with an empty start, and its bytes are not counted.
#[test]
fn of_empty_starts() {
    let [a, b] = [(32_754, 1), (1_000, 2)].map(|(length, byte)| vec![byte; length]);
    let mut log = [written(&[&a]), fragment(FIRST, b""), fragment(FULL, &b)].concat();
    let (fresh, skipped) = made(&log, LONGEST_RECORD);
    assert_eq!((fresh.len(), skipped), (33_775, 0));
    assert!(fresh == written(&[&a, &b]));
    log[33_000] ^= 1;
    assert!(made(&log, LONGEST_RECORD) == (written(&[&a]), 1_014));

    let [begun, middle, full, orphan] = [FIRST, MIDDLE, FULL, LAST].map(|kind| fragment(kind, b""));
    let with = |pieces: &[&[u8]]| made(&pieces.concat(), 0);
    let one = written(&[b""]);
    assert_eq!(with(&[&begun, &full]), (one.clone(), 0));
    assert_eq!(with(&[&begun, &middle, &begun, &full]), (one.clone(), 0));
    assert_eq!(with(&[&begun, &full, &orphan, &begun]), (one, 7));
    assert_eq!(with(&[&begun, &[0; 7]]), (Vec::new(), 14));
}

/// What comes out is whole, has the records that there were, and mends to itself.
#[test]
fn of_the_samples() {
    let samples = [
        &include_bytes!("../../../samples/clean.log")[..],
        include_bytes!("../../../samples/damaged.log"),
        include_bytes!("../../../samples/leveldb.log"),
        include_bytes!("../../../samples/torn.log"),
        include_bytes!("../../../samples/old_writer.log"),
    ];
    let mut same = Vec::new();
    for bad in samples {
        let (fresh, skipped) = made(bad, LONGEST_RECORD);
        let expected = mended(bad, LONGEST_RECORD, &mut vec![0; LONGEST_RECORD]);
        assert!((&fresh, skipped) == (&expected.0, expected.1));
        assert!(records(&fresh).is_ok());
        assert!(made(&fresh, LONGEST_RECORD) == (fresh.clone(), 0));
        same.push((fresh == bad, skipped));
    }
    // A torn tail is lost, and not counted. Nothing is lost with an empty start, which does not come
    // out (§13.5).
    let [clean, damaged, leveldb, torn, old_writer] = same[..] else {
        panic!("{same:?}");
    };
    assert_eq!([clean, leveldb], [(true, 0); 2]);
    assert_eq!(damaged, (false, 41_605));
    assert_eq!([torn, old_writer], [(false, 0); 2]);
}

/// A record over the limit is lost: a reading of the mended log with a higher one has it no more.
#[test]
fn with_a_limit() {
    let log = written(&[b"1", &[2; BLOCK], b"333", b"", &[4; BLOCK + 1]]);
    for (limit, left) in [(0, 1), (2, 2), (3, 3), (BLOCK, 4), (BLOCK + 1, 5)] {
        let (fresh, skipped) = made(&log, limit);
        let all = records(&fresh).expect("a log that is whole");
        assert_eq!((all.len(), skipped == 0), (left, left == 5), "{limit}");
        assert!(all.iter().all(|record| record.len() <= limit), "{limit}");
    }
}

/// Each condition by itself and with those that are judged after it: the first gives its number.
#[test]
fn on_every_condition() {
    let (two, mut log) = (two_records(), vec![0; LONGEST_LOG + 1]);
    log[..two.len()].copy_from_slice(&two);
    let (mut fresh, mut buffer) = (vec![0; log.len()], vec![0xA5; LONGEST_RECORD + 1]);
    // No more than these are looked at; to fill all of it would take a gigabyte of memory.
    fresh[..1_000].fill(0x5A);
    let mut numbers = BTreeSet::new();
    for length in [0, 38, LONGEST_LOG, LONGEST_LOG + 1] {
        for limit in [0, 12, 13, LONGEST_RECORD, LONGEST_RECORD + 1, usize::MAX] {
            for room in [0, 17, 18, 37, 38, LONGEST_LOG, LONGEST_LOG + 1] {
                for lent in [0, 11, 12, 13, LONGEST_RECORD, LONGEST_RECORD + 1] {
                    let (fresh, buffer) = (&mut fresh[..room], &mut buffer[..lent]);
                    numbers.extend(refusal(&log[..length], fresh, limit, buffer));
                }
            }
        }
    }
    assert!(numbers.into_iter().eq([1, 4, 5, 6]));
}

/// The number of the refusal, if the log of two records, or nothing, is refused as §12.5 says.
fn refusal(bad: &[u8], fresh: &mut [u8], limit: usize, buffer: &mut [u8]) -> Option<u8> {
    let length = match limit {
        12 if !bad.is_empty() => 18,
        13.. if !bad.is_empty() => 38,
        _ => 0,
    };
    let mut conditions = [
        (1, bad.len().max(fresh.len()) > LONGEST_LOG),
        (5, limit > LONGEST_RECORD),
        (6, buffer.len() < limit),
        (4, length > fresh.len()),
    ]
    .into_iter();
    let number = conditions.find_map(|(number, holds)| holds.then_some(number));
    let got = mend(bad, fresh, limit, buffer);
    let call = [bad, fresh, buffer].map(<[u8]>::len);
    let refused = number.map(|number| log::Next::Refused { number, given: 0 });
    let got = got.map(|mended| mended.length).map_err(expected::refused);
    assert_eq!(got, refused.map_or(Ok(length), Err), "{call:?}, {limit}");
    let written = got.unwrap_or(0);
    let mut unwritten = fresh[written..].iter().take(100);
    assert!(unwritten.all(|&byte| byte == 0x5A), "{call:?}, {limit}");
    // None of the records is gathered.
    let mut lent = buffer.iter().take(100);
    assert!(lent.all(|&byte| byte == 0xA5), "{call:?}, {limit}");
    fresh[..written].fill(0x5A);
    number
}

/// The numbers that types are made of: all ten are written, whatever they were.
#[test]
fn as_numbers() {
    let log = two_records();
    let numbers = |fresh: &mut [u8]| {
        let mut answer: Numbers = [u64::MAX; 10];
        let kind = numbers::mend(&log, fresh, 12, &mut [0; 12], &mut answer);
        assert_eq!(kind, answer[0]);
        answer
    };
    assert_eq!(numbers(&mut [0; 18]), [0, 18, 20, 0, 0, 0, 0, 0, 0, 0]);
    assert_eq!(numbers(&mut [0; 17]), [1, 4, 0, 0, 0, 0, 0, 0, 0, 0]);
}
