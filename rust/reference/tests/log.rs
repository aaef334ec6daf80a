//! The reference's log against the format: the rows M of "Marked runs" (9 and 10, of the mask, are
//! in tests/crc32c.rs), the lists of "Run and compared", and the table of two rows.

mod answers;

use answers::{record, skip};
use reference::log::{
    append, fragment, next, record_bytes, Appended, Next, Stored, Tail, LONGEST_LOG, LONGEST_RECORD,
};

#[test]
fn rows_1_to_8_size_added_at_a_used_mark() {
    let rows = [
        (0, 1_000, 1_007),
        (1_007, 97_270, 97_291),
        (98_298, 8_000, 8_013),
        (32_761, 0, 7),
        (32_761, 1, 15),
        (32_762, 0, 13),
        (0, 32_761, 32_768),
        (0, 32_762, 32_776),
    ];
    for (mark, bytes, size) in rows {
        let record = vec![0x11; bytes];
        let mut log = vec![0xA5; mark + size];
        assert_eq!(
            append(&mut log, mark, &record),
            Appended::Mark(mark + size),
            "mark {mark}, {bytes} bytes"
        );
        log.pop();
        assert_eq!(
            append(&mut log, mark, &record),
            Appended::Refused {
                number: 4,
                given: mark
            },
            "mark {mark}, {bytes} bytes in one byte too few"
        );
    }
}

#[test]
fn rows_11_to_15_reading_from_0_with_limit_100() {
    let clean = Next::End(Tail::Clean);
    let torn = Next::End(Tail::Torn(0));
    let rows: [(&[u8], &[Next]); 6] = [
        (&[], &[clean]),
        (&[0; 6], &[torn]),
        (&[0xFF; 6], &[torn]),
        (&[0; 7], &[skip(0, 7, 2), clean]),
        (&[0, 0, 0, 0, 0xFF, 0xFF, 1], &[skip(0, 7, 1), clean]),
        (&[0, 0, 0, 0, 1, 0, 1], &[torn]),
    ];
    for (log, answers) in rows {
        let read: Vec<Next> = read(log, 100).into_iter().map(|(next, _)| next).collect();
        assert_eq!(read, answers, "{log:02x?}");
    }
}

#[test]
fn the_example_whole() {
    let (log, records) = example();
    let [first, second, third] = handed(&records);
    let clean = (Next::End(Tail::Clean), vec![]);
    assert_eq!(read(&log, 262_144), [first, second, third, clean]);
}

#[test]
fn the_example_cut() {
    let (log, records) = example();
    let [first, second, _] = handed(&records);
    let clean = (Next::End(Tail::Clean), vec![]);
    let torn = (Next::End(Tail::Torn(98_304)), vec![]);
    assert_eq!(
        read(&log[..106_310], 262_144),
        [first.clone(), second.clone(), torn]
    );
    assert_eq!(read(&log[..98_300], 262_144), [first, second, clean]);
}

#[test]
fn the_example_with_byte_40_000_changed() {
    let (log, records) = example();
    for change in 1..=255 {
        let mut log = log.clone();
        log[40_000] ^= change;
        let [first, _, third] = handed(&records);
        let list = [
            first,
            (skip(1_007, 32_768, 4), vec![]),
            (skip(32_768, 65_536, 3), vec![]),
            (skip(65_536, 98_298, 5), vec![]),
            third,
            (Next::End(Tail::Clean), vec![]),
        ];
        assert_eq!(read(&log, 262_144), list, "changed by {change:02x}");
    }
}

#[test]
fn the_longest_record_and_the_longest_log() {
    let mut log = vec![0; LONGEST_LOG + 1];
    let longest = &mut log[..LONGEST_LOG];
    let record = vec![0x11; LONGEST_RECORD + 1];
    assert_eq!(append(longest, 0, &record), refused(3));
    assert!(matches!(
        append(longest, 0, &record[1..]),
        Appended::Mark(_)
    ));
    let mut buffer = [0; 100];
    assert_eq!(
        next(longest, LONGEST_LOG, 100, &mut buffer),
        Next::End(Tail::Clean)
    );
    assert_eq!(append(&mut log, 0, &[]), refused(1));
    let (number, given) = (1, 0);
    assert_eq!(
        next(&log, 0, 100, &mut buffer),
        Next::Refused { number, given }
    );
}

/// A fragment of 3 bytes, after nothing and after a FIRST of 2, with a limit that both keep.
#[test]
fn the_table_of_two_rows() {
    let torn = Next::End(Tail::Torn(0));
    let whole = record(0, 10, 3, Stored::Whole(7), (1, 0));
    let gathered = record(0, 19, 5, Stored::Gathered, (2, 9));
    let rows = [
        (1, whole, skip(0, 9, 4)),
        (2, torn, skip(0, 9, 4)),
        (3, skip(0, 10, 5), torn),
        (4, skip(0, 10, 5), gathered),
        (0, skip(0, 10, 6), skip(0, 9, 4)),
        (5, skip(0, 10, 6), skip(0, 9, 4)),
        (255, skip(0, 10, 6), skip(0, 9, 4)),
    ];
    for (kind, nothing_open, record_open) in rows {
        let log = fragment(kind, &[7; 3]);
        assert_eq!(read(&log, 3)[0].0, nothing_open, "type {kind}");
        let log = [fragment(2, &[7; 2]), log].concat();
        assert_eq!(read(&log, 5)[0].0, record_open, "type {kind}");
    }
}

/// The same with a limit that is one lower: reason 7 where the table has hand out, open or extend.
#[test]
fn over_the_limit() {
    let rows = [
        (1, skip(0, 10, 7), skip(0, 9, 4)),
        (2, skip(0, 10, 7), skip(0, 9, 4)),
        (3, skip(0, 10, 5), skip(0, 19, 7)),
        (4, skip(0, 10, 5), skip(0, 19, 7)),
        (5, skip(0, 10, 6), skip(0, 9, 4)),
    ];
    for (kind, nothing_open, record_open) in rows {
        let log = fragment(kind, &[7; 3]);
        assert_eq!(read(&log, 2)[0].0, nothing_open, "type {kind}");
        let log = [fragment(2, &[7; 2]), log].concat();
        assert_eq!(read(&log, 4)[0].0, record_open, "type {kind}");
    }
}

/// A fragment of 3 bytes after an empty FIRST, or after that and empty MIDDLEs: a FULL and a FIRST
/// give reason 8, at any limit (§13.2), and nothing else does (§13.3).
#[test]
fn after_an_empty_first() {
    for middles in 0..3 {
        let empty = [fragment(2, &[]), fragment(3, &[]).repeat(middles)].concat();
        let (end, all) = (empty.len(), empty.len() + 10);
        let gathered = record(0, all, 3, Stored::Gathered, (middles + 2, end));
        let rows = [
            (1, skip(0, end, 8), skip(0, end, 8)),
            (2, skip(0, end, 8), skip(0, end, 8)),
            (3, Next::End(Tail::Torn(0)), skip(0, all, 7)),
            (4, gathered, skip(0, all, 7)),
            (0, skip(0, end, 4), skip(0, end, 4)),
            (5, skip(0, end, 4), skip(0, end, 4)),
            (255, skip(0, end, 4), skip(0, end, 4)),
        ];
        for (kind, within, over) in rows {
            let log = [empty.clone(), fragment(kind, &[7; 3])].concat();
            assert_eq!(read(&log, 3)[0].0, within, "type {kind}, {middles}");
            assert_eq!(read(&log, 2)[0].0, over, "type {kind}, {middles}");
        }
    }
}

/// One byte of data, in the FIRST or in any MIDDLE, and it is no empty start.
#[test]
fn after_a_byte() {
    let data: [&[u8]; 2] = [&[], &[7]];
    for which in 0..3 {
        let part = |i: usize, kind| fragment(kind, data[usize::from(i == which)]);
        let open = [part(0, 2), part(1, 3), part(2, 3)].concat();
        for kind in [1, 2] {
            let log = [open.clone(), fragment(kind, &[])].concat();
            assert_eq!(read(&log, 9)[0].0, skip(0, 22, 4), "byte in {which}");
        }
    }
}

/// "Where reason 1, 2 or 3 arises with a record open, reason 4 is answered first": of an empty one
/// too.
#[test]
fn interrupted_before_bad() {
    let bad = [
        (vec![0, 0, 0, 0, 0xFF, 0xFF, 1], 1),
        (vec![0; 7], 2),
        (vec![0, 0, 0, 0, 0, 0, 1], 3),
    ];
    for (header, reason) in bad {
        for first in [fragment(2, &[7; 2]), fragment(2, &[])] {
            let log = [&first[..], &header, &[0xA5; 20]].concat();
            let (o, end) = (first.len(), log.len());
            let answers = [skip(0, o, 4), skip(o, end, reason), Next::End(Tail::Clean)];
            let read: Vec<Next> = read(&log, 100).into_iter().map(|(next, _)| next).collect();
            assert_eq!(read, answers);
        }
    }
}

/// Rows 1 to 3 of M in turn, in a log that held other bytes.
fn example() -> (Vec<u8>, [Vec<u8>; 3]) {
    let records: [Vec<u8>; 3] =
        [1_000, 97_270, 8_000].map(|bytes| (0..bytes).map(|i| (i * 7 + i / 251) as u8).collect());
    let mut log = vec![0xA5; 106_311];
    let mut mark = 0;
    for (record, end) in records.iter().zip([1_007, 98_298, 106_311]) {
        assert_eq!(append(&mut log, mark, record), Appended::Mark(end));
        mark = end;
    }
    (log, records)
}

/// The records' lines in the document's list, with the bytes that are then asked for.
fn handed(records: &[Vec<u8>; 3]) -> [(Next, Vec<u8>); 3] {
    let lines = [
        record(0, 1_007, 1_000, Stored::Whole(7), (1, 0)),
        record(1_007, 98_298, 97_270, Stored::Gathered, (3, 65_536)),
        record(98_304, 106_311, 8_000, Stored::Whole(98_311), (1, 98_304)),
    ];
    [0, 1, 2].map(|i| (lines[i], records[i].clone()))
}

fn refused(number: u8) -> Appended {
    Appended::Refused { number, given: 0 }
}

/// Every answer from place 0 to the end, each with the bytes asked for right after it.
fn read(log: &[u8], limit: usize) -> Vec<(Next, Vec<u8>)> {
    let mut buffer = vec![0x5A; limit];
    let mut answers = Vec::new();
    let mut place = 0;
    loop {
        let answer = next(log, place, limit, &mut buffer);
        answers.push((answer, record_bytes(log, &buffer, &answer).to_vec()));
        if matches!(answer, Next::End(_) | Next::Refused { .. }) {
            return answers;
        }
        place = answer.place_after(log);
    }
}

/// The proved programs are held to these outputs, so they must be the ones that this crate makes.
#[test]
fn made_the_stored_outputs() {
    let example = include_str!("../../../crates/run_example/stdout");
    assert_eq!(example, reference::runs::example::listing());
    let edges = include_str!("../../../crates/run_edges/stdout");
    assert_eq!(edges, reference::runs::edges::listing());
    let reasons = include_str!("../../../crates/run_reasons/stdout");
    assert_eq!(reasons, reference::runs::reasons::listing());
    let trailers = include_str!("../../../crates/run_trailers/stdout");
    assert_eq!(trailers, reference::runs::trailers::listing());
}
