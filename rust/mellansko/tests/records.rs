//! The strict way beside the reference. Random and hostile logs are in `log.rs`.

mod expected;
mod strict;

use mellansko::{records, records_with_limit, NotWhole, Reason, Skip, Tail};
use reference::log::{
    self, append, fragment, Appended, BLOCK, HEADER, LONGEST_LOG, LONGEST_RECORD,
};
use reference::log::{FIRST, FULL, LAST, MIDDLE};
use strict::Strict;

/// What the reference answers up to the end, with the highest limit.
fn by_reference(log: &[u8], limit: usize) -> Strict {
    let mut buffer = vec![0; LONGEST_RECORD];
    let mut answers = Vec::new();
    let mut place = 0;
    loop {
        let answer = log::next(log, place, limit, &mut buffer);
        let bytes = log::record_bytes(log, &buffer, &answer).to_vec();
        answers.push((answer, bytes));
        place = answer.place_after(log);
        if matches!(answer, log::Next::End(_) | log::Next::Refused { .. }) {
            return strict::of_answers(&answers);
        }
    }
}

/// The reference's log of these records.
fn written(records: &[&[u8]]) -> Vec<u8> {
    let size = |record: &&[u8]| record.len() + HEADER * (record.len() / BLOCK + 3);
    let mut log = vec![0; records.iter().map(size).sum()];
    let mut mark = 0;
    for record in records {
        match append(&mut log, mark, record) {
            Appended::Mark(end) => mark = end,
            refused => panic!("{refused:?} with room enough"),
        }
    }
    log.truncate(mark);
    log
}

#[test]
fn on_the_samples() {
    let samples = [
        &include_bytes!("../../../samples/clean.log")[..],
        include_bytes!("../../../samples/damaged.log"),
        include_bytes!("../../../samples/leveldb.log"),
        include_bytes!("../../../samples/old_writer.log"),
        include_bytes!("../../../samples/torn.log"),
    ];
    let mut whole = Vec::new();
    for log in samples {
        let expected = by_reference(log, LONGEST_RECORD);
        whole.push(expected.is_ok());
        assert!(strict::of(records(log)) == expected);
    }
    assert_eq!(whole, [true, false, true, true, false]);
}

/// At the highest limit and one byte above it, and with a lower one.
#[test]
fn on_records_above_the_limit() {
    let mut log = fragment(FIRST, &vec![1; BLOCK - HEADER]);
    let full = LONGEST_RECORD / (BLOCK - HEADER);
    for _ in 1..full {
        log.extend(fragment(MIDDLE, &vec![2; BLOCK - HEADER]));
    }
    let rest = LONGEST_RECORD - full * (BLOCK - HEADER);
    for (more, whole) in [(0, true), (1, false)] {
        let log = [&log[..], &fragment(LAST, &vec![3; rest + more])].concat();
        assert_eq!(strict::of(records(&log)).is_ok(), whole);
        assert!(strict::of(records(&log)) == by_reference(&log, LONGEST_RECORD));
    }
    let log = written(&[b"1", b"22", b"333"]);
    for limit in 0..5 {
        let given = records_with_limit(&log, limit);
        assert_eq!(
            strict::of(given),
            by_reference(&log, limit),
            "limit {limit}"
        );
    }
    let Err(NotWhole::InDoubt(doubt)) = records_with_limit(&log, 1) else {
        panic!("a record above the limit went unnoticed");
    };
    let reasons: Vec<Reason> = doubt.skips.iter().map(|skip| skip.reason).collect();
    assert_eq!(reasons, [Reason::OverLimit; 2]);
}

/// Logs of early writers, where a record begins afresh with a FULL or with a FIRST. They are whole,
/// and can be appended to.
#[test]
fn on_logs_of_early_writers() {
    let before = vec![1; BLOCK - 2 * HEADER];
    for length in [0, 1_000, BLOCK - HEADER, 40_000] {
        let record = vec![2; length];
        let begun = fragment(FIRST, b"");
        let mut log = [written(&[&before]), begun, written(&[&record])].concat();
        assert_eq!(log[BLOCK + 6], if length < BLOCK { FULL } else { FIRST });
        assert!(strict::of(records(&log)) == Ok(vec![before.clone(), record.clone()]));
        assert!(strict::of(records(&log)) == by_reference(&log, LONGEST_RECORD));
        let mark = log.len();
        log.resize(mark + 50, 0);
        let end = mellansko::append(&mut log, mark, b"LW12").expect("room for it");
        let all = vec![before.clone(), record, b"LW12".to_vec()];
        assert!(strict::of(records(&log[..end])) == Ok(all));
    }
}

/// What is in doubt in a log of these fragments, by the crate and by the reference; nothing if there
/// are records.
fn doubt(fragments: &[&[u8]]) -> Option<(Vec<Skip>, Tail)> {
    let log = fragments.concat();
    assert_eq!(
        strict::of(records(&log)),
        by_reference(&log, LONGEST_RECORD)
    );
    match records(&log) {
        Ok(_) => None,
        Err(NotWhole::InDoubt(doubt)) => Some((doubt.skips, doubt.tail)),
        Err(refused) => panic!("{refused}"),
    }
}

/// What is in doubt beside empty starts is listed, and no empty start is.
#[test]
fn on_empty_starts_and_what_is_in_doubt() {
    let [begun, middle, full, orphan, unknown] =
        [FIRST, MIDDLE, FULL, LAST, 5].map(|kind| fragment(kind, b""));
    let skip = |start, end, reason| Skip { start, end, reason };
    assert_eq!(doubt(&[&begun, &full]), None);
    assert_eq!(doubt(&[&begun, &middle, &begun, &begun, &full]), None);
    assert_eq!(doubt(&[&begun, &begun]), Some((vec![], Tail::Torn(7))));
    let skips = vec![skip(14, 21, Reason::Orphan)];
    let log = [&begun[..], &full, &orphan, &begun, &full];
    assert_eq!(doubt(&log), Some((skips, Tail::Clean)));
    let last = skip(21, 28, Reason::UnknownType);
    let skips = vec![skip(0, 7, Reason::Orphan), last];
    let log = [&orphan[..], &begun, &full, &unknown, &begun, &begun];
    assert_eq!(doubt(&log), Some((skips, Tail::Torn(35))));
    // If anything else interrupts it, it is no empty start.
    let last = skip(7, 14, Reason::UnknownType);
    let skips = vec![skip(0, 7, Reason::Interrupted), last];
    assert_eq!(doubt(&[&begun, &unknown]), Some((skips, Tail::Clean)));
}

#[test]
fn on_what_is_refused() {
    let bytes = vec![0; LONGEST_LOG + 1];
    for length in [0, 20, LONGEST_LOG + 1] {
        let log = &bytes[..length];
        for limit in [0, LONGEST_RECORD, LONGEST_RECORD + 1, usize::MAX] {
            let given = strict::of(records_with_limit(log, limit));
            assert_eq!(given, by_reference(log, limit), "{length}, limit {limit}");
        }
        assert_eq!(strict::of(records(log)), by_reference(log, LONGEST_RECORD));
    }
}

/// What the documentation lists: all of these read as whole, with other records than were written.
#[test]
fn on_what_no_reader_can_tell() {
    // A block each.
    let full = [1, 2, 3].map(|byte| vec![byte; BLOCK - HEADER]);
    let [one, two, three] = [0, 1, 2].map(|i| &full[i][..]);
    let log = written(&[one, two, three]);
    let blocks: Vec<&[u8]> = log.chunks(BLOCK).collect();
    let whole = |log: &[u8]| strict::of(records(log)).expect("whole, as far as one can tell");
    // Cut between two records.
    assert!(whole(&log[..2 * BLOCK]) == [one, two]);
    // A block left out, there twice, replaced.
    assert!(whole(&[blocks[0], blocks[2]].concat()) == [one, three]);
    assert!(whole(&[blocks[0], blocks[0], blocks[1]].concat()) == [one, one, two]);
    assert!(whole(&[blocks[0], &written(&[b"older"])].concat()) == [one, b"older"]);
    // Pieces of two records that fit.
    let [ours, older] = [4, 5].map(|byte| vec![byte; BLOCK]);
    let (front, back) = (written(&[&ours]), written(&[&older]));
    let mixed = [&ours[..BLOCK - HEADER], &older[BLOCK - HEADER..]].concat();
    assert!(whole(&[&front[..BLOCK], &back[BLOCK..]].concat()) == [mixed]);
    // An empty start whose record went with its block (§13.6).
    let short = &one[HEADER..];
    let log = written(&[short, two, three]);
    assert!(whole(&[&log[..BLOCK], &log[2 * BLOCK..]].concat()) == [short, three]);
    // Made with a right checksum.
    assert!(whole(&fragment(FULL, b"made up")) == [b"made up"]);
}
