//! The examples of §13.7: read, fed in pieces, and mended.

use super::{bytes, fed, fed_as_told, mended, part, says, table, told, PAGE};
use reference::log::{fragment, FIRST, FULL, LAST};

/// The two tables: the records that begin afresh, and the small logs.
fn tables() -> [Vec<Vec<String>>; 2] {
    let start = PAGE.find("**§13.7**").expect("the number");
    let mut lines = PAGE[start..].lines();
    [3, 6].map(|length| {
        let rows = table(&mut lines);
        assert_eq!(rows.len(), length, "{rows:?}");
        rows
    })
}

/// A FULL that leaves 7 bytes of its block, an empty FIRST there, and then a record that the first
/// cell of a row tells.
pub fn log(record: &str) -> Vec<u8> {
    let mut log = fragment(FULL, &[1; 32_754]);
    log.extend(fragment(FIRST, b""));
    match record {
        "1,000 bytes, a FULL" => log.extend(fragment(FULL, &[2; 1_000])),
        "1,000 bytes, a FULL, with a byte of its data changed" => {
            log.extend(fragment(FULL, &[2; 1_000]));
            log[33_000] ^= 1;
        }
        "40,000 bytes, a FIRST of 32,761 and a LAST of 7,239" => {
            log.extend(fragment(FIRST, &[2; 32_761]));
            log.extend(fragment(LAST, &[2; 7_239]));
        }
        other => panic!("{other}"),
    }
    log
}

#[test]
fn records_that_begin_afresh() {
    let [rows, _] = tables();
    for row in rows {
        let log = log(&row[0]);
        assert_eq!(told(&log, 262_144).join("; "), row[1], "{row:?}");
        for length in [1, 6, 7, 1_000, 32_761, 32_768, 200_000] {
            fed_as_told(&log, 262_144, length, &row[1]);
        }
    }
}

#[test]
fn small_logs() {
    let [_, rows] = tables();
    for row in rows {
        let log = bytes(&row[0]);
        // Here the page says the lengths as well, which `fed_as_told` holds.
        let due = row[1].replace(", 0 bytes", "");
        assert_eq!(told(&log, 100).join("; "), due, "{row:?}");
        for length in 1..=log.len() {
            fed_as_told(&log, 100, length, &row[1]);
        }
    }
}

/// The moment of an empty start: the last byte of the FULL or FIRST that comes after it (§13.4).
#[test]
fn as_soon_as_the_fragment_has_come() {
    for (record, moment) in [
        ("1,000 bytes, a FULL", 33_775),
        (
            "40,000 bytes, a FIRST of 32,761 and a LAST of 7,239",
            65_536,
        ),
    ] {
        let answers = fed(&log(record), 262_144, 1);
        let start = "skipped 32,761 to 32,768, reason 8".to_string();
        assert_eq!(answers[1], (start, moment));
    }
}

#[test]
fn the_first_and_the_third_mended() {
    let text = part("§13.7", "| log |");
    let [rows, _] = tables();
    let [first, third] = [0, 2].map(|row| log(&rows[row][0]));
    let (fresh, answer) = mended(&first, first.len(), 262_144);
    let same = "mended into a fresh slice as long as it is";
    says(&text, &format!("The first of them, {same}: {answer}."));
    says(
        &text,
        "the second record is an empty FIRST and a LAST there",
    );
    let appended = [
        fragment(FULL, &[1; 32_754]),
        fragment(FIRST, b""),
        fragment(LAST, &[2; 1_000]),
    ];
    assert!(fresh == appended.concat());
    let (fresh, answer) = mended(&third, third.len(), 262_144);
    says(&text, &format!("The third: {answer}."));
    assert!(fresh == first[..32_761]);
}
