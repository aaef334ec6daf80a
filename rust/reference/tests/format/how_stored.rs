//! How a record was stored (§16): the tables of §16.8, read and fed in pieces.

use super::{append, bytes, fed_answers, grouped, line, mended, picture, reading, table, PAGE};
use super::{dirty_trailer, empty_start};
use super::{Appended, Next, Stored, Told};
use reference::feed::words_of_told;
use reference::log::{fragment, stored_by, FIRST, LAST, MIDDLE};

/// The three tables: ten words, other records, and a small log.
fn tables() -> [Vec<Vec<String>>; 3] {
    let start = PAGE.find("**§16.8**").expect("the number");
    let mut lines = PAGE[start..].lines();
    [3, 9, 1].map(|length| {
        let rows = table(&mut lines);
        assert_eq!(rows.len(), length, "{rows:?}");
        rows
    })
}

fn number(text: &str) -> usize {
    text.replace(',', "").parse().expect("a number")
}

/// A record's ten words: the row of §10.1.
pub fn words(answer: Next) -> [usize; 10] {
    let Next::Record {
        start,
        end,
        length,
        stored,
        fragments,
        last_header,
    } = answer
    else {
        panic!("{answer:?} is no record");
    };
    let (gathered, first_byte) = match stored {
        Stored::Whole(place) => (0, place),
        Stored::Gathered => (1, 0),
    };
    let before = [0, start, end, length, gathered, first_byte];
    let after = [end, fragments, last_header, 0];
    [&before[..], &after].concat().try_into().expect("ten")
}

#[test]
fn ten_words_of_the_picture() {
    let (log, _) = picture();
    let [rows, ..] = tables();
    let answers = reading(&log, 262_144);
    for (row, answer) in rows.iter().zip(&answers) {
        let words = words(*answer);
        assert_eq!(row[0], format!("{} bytes", grouped(words[3])));
        assert_eq!(row[1..], words.map(grouped), "{row:?}");
    }
}

/// The same words from the fed reader, but that every record is gathered (§11.10).
#[test]
fn ten_words_of_the_picture_fed() {
    let (log, _) = picture();
    let [rows, ..] = tables();
    for length in [1, 7, 1_000, 32_768, 200_000] {
        let answers = fed_answers(&log, 262_144, length);
        for (row, (answer, came)) in rows.iter().zip(answers) {
            let mut due: Vec<u64> = row[1..].iter().map(|word| number(word) as u64).collect();
            (due[4], due[5]) = (1, 0);
            let words = words_of_told(Told::Answer(answer), came as u64);
            assert_eq!(words[..], due, "{row:?}");
        }
    }
}

/// The log that a row speaks of, which ends with its record; and how many bytes that has.
fn log_of(record: &str) -> (Vec<u8>, usize) {
    let afresh = || empty_start::log("1,000 bytes, a FULL");
    match record {
        "the second of §13.7's first log, 1,000 bytes" => (afresh(), 1_000),
        "the same, in the mended log" => {
            let bad = afresh();
            (mended(&bad, bad.len(), 262_144).0, 1_000)
        }
        "§14.7, across a clean trailer, 0 bytes" => (dirty_trailer::inside(&[0; 6]), 0),
        appended => {
            let said = appended.strip_prefix("appended at mark ").expect("a mark");
            let (mark, length) = said.split_once(": ").expect("a length");
            let length = match length.split_once(' ') {
                Some((count, _)) => number(count),
                None => 0,
            };
            (log_with(number(mark), length), length)
        }
    }
}

/// A record up to a mark, if that is not 0, and one of a length at the mark.
fn log_with(mark: usize, length: usize) -> Vec<u8> {
    let mut log = vec![0; mark + length + 10_000];
    if mark > 0 {
        let before = append(&mut log, 0, &vec![6; mark - 7]);
        assert_eq!(before, Appended::Mark(mark));
    }
    let Appended::Mark(end) = append(&mut log, mark, &vec![7; length]) else {
        panic!("refused");
    };
    log.truncate(end);
    log
}

/// Start, end, fragments and last header of the last record, and how many bytes it has.
fn last_record(answers: &[Next]) -> ([usize; 4], usize) {
    let [.., record, Next::End(_)] = answers else {
        panic!("{answers:?}");
    };
    let [_, start, end, length, _, _, _, fragments, last_header, _] = words(*record);
    ([start, end, fragments, last_header], length)
}

#[test]
fn other_records() {
    let [_, rows, _] = tables();
    for row in rows {
        let (log, length) = log_of(&row[0]);
        let due = [1, 2, 3, 4].map(|column| number(&row[column]));
        let limit = length.max(262_144);
        let answers = reading(&log, limit);
        assert_eq!(last_record(&answers), (due, length), "{row:?}");
        for piece in [if log.len() < 100_000 { 1 } else { 1_000 }, 32_768, 200_000] {
            let fed: Vec<Next> = fed_answers(&log, limit, piece)
                .into_iter()
                .map(|(answer, _)| answer)
                .collect();
            assert_eq!(last_record(&fed), (due, length), "{row:?}, {piece}");
        }
    }
}

/// Those that an append made are worked out from their spans (§16.5): all but the two that
/// something else wrote. The one of them that stands at a block's start as an append there would
/// put it has these numbers as well; the other has not.
#[test]
fn other_records_worked_out() {
    let [_, rows, _] = tables();
    for row in rows {
        let (_, length) = log_of(&row[0]);
        let [start, end, fragments, last_header] = [1, 2, 3, 4].map(|i| number(&row[i]));
        let across_a_trailer = row[0].starts_with("§14.7");
        // Headers alone would be 14 bytes, and with the trailer of 6 they are 20.
        assert_eq!((end - start - length) % 7 != 0, across_a_trailer, "{row:?}");
        if !across_a_trailer {
            let worked_out = stored_by(start, end, length);
            assert_eq!(worked_out, (fragments, last_header), "{row:?}");
        }
    }
}

/// An answer as the third table tells it.
fn line_with_how(answer: Next) -> String {
    let Next::Record {
        start,
        end,
        length,
        fragments,
        last_header,
        ..
    } = answer
    else {
        return line(answer);
    };
    let stored = line(answer).split(", ").last().map(str::to_string);
    let stored = stored.expect("the last part of the line");
    let [start, end, length] = [start, end, length].map(grouped);
    let how = format!("{fragments} fragments, last header {last_header}");
    format!("record {start} to {end}, {length} bytes, {stored}, {how}")
}

#[test]
fn a_record_of_two_fragments_that_breaks_off() {
    let [.., rows] = tables();
    let log = bytes(&rows[0][0]);
    let parts = [
        fragment(FIRST, b"a"),
        fragment(MIDDLE, b""),
        fragment(FIRST, b""),
        fragment(LAST, b""),
    ];
    assert_eq!(log, parts.concat());
    let lines = |answers: Vec<Next>| {
        let lines: Vec<String> = answers.into_iter().map(line_with_how).collect();
        lines.join("; ")
    };
    assert_eq!(lines(reading(&log, 100)), rows[0][1]);
    for length in 1..=log.len() {
        let fed = fed_answers(&log, 100, length).into_iter();
        let fed = fed.map(|(answer, _)| answer).collect();
        assert_eq!(lines(fed), rows[0][1], "in pieces of {length}");
    }
}
