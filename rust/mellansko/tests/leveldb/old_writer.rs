//! LevelDB as the witness for empty starts (docs/FORMAT.md, §13): its reader finds the records that
//! begin afresh and drops nothing, and says so where a record that has bytes breaks off.

use super::interop::leveldb;
use super::{fed_answers, records_of};
use mellansko::{Answer, Reading, Reason};
use reference::log::{fragment, FIRST, FULL, LAST, MIDDLE};
use reference::samples;

const OLD_WRITER: &[u8] = include_bytes!("../../../../samples/old_writer.log");

/// The types of fragments and their data.
type Fragments<'a> = [(u8, &'a [u8])];

/// A log of these fragments, one after the other.
fn laid(fragments: &Fragments) -> Vec<u8> {
    let bytes = fragments.iter().map(|(kind, data)| fragment(*kind, data));
    bytes.collect::<Vec<_>>().concat()
}

/// A log in which nothing is lost, its records, and how many empty starts it has.
struct Old {
    log: Vec<u8>,
    records: Vec<Vec<u8>>,
    starts: usize,
}

/// The sample; and by hand, after a record that leaves 7 bytes of its block, an empty FIRST and the
/// record afresh: with FULL, with FIRST, and with FULL after an empty MIDDLE.
fn logs() -> Vec<Old> {
    let [before, short, long] = [(32_754, 1), (1_000, 2), (40_000, 3)]
        .map(|(length, byte): (usize, u8)| vec![byte; length]);
    let (one, rest) = long.split_at(32_761);
    let open = [(FULL, &before[..]), (FIRST, &[])];
    let afresh: [(&Fragments, _); 3] = [
        (&[(FULL, &short)], &short),
        (&[(FIRST, one), (LAST, rest)], &long),
        (&[(MIDDLE, &[]), (FULL, &short)], &short),
    ];
    let sample = samples::old_writer().records.into_iter();
    let mut logs = vec![Old {
        log: OLD_WRITER.to_vec(),
        records: sample.map(String::into_bytes).collect(),
        starts: 2,
    }];
    logs.extend(afresh.map(|(fragments, record)| Old {
        log: laid(&[&open, fragments].concat()),
        records: vec![before.clone(), record.clone()],
        starts: 1,
    }));
    logs
}

/// Which answers are skipped ranges of this reason.
fn of(reason: Reason) -> impl Fn(&Answer) -> bool {
    move |answer| matches!(answer, Answer::Skip(skip) if skip.reason == reason)
}

/// The records, and how many empty starts there are; nothing else is skipped.
fn kept(mut answers: Vec<Answer>) -> (Vec<Vec<u8>>, usize) {
    let all = answers.len();
    answers.retain(|answer| !of(Reason::EmptyStart)(answer));
    let starts = all - answers.len();
    (records_of(answers), starts)
}

#[test]
fn with_an_empty_start_leveldb_drops_nothing() {
    for (i, old) in logs().into_iter().enumerate() {
        let whole = Reading::of(&old.log).expect("no refusal").collect();
        for answers in [whole, fed_answers(&old.log, 1_000)] {
            let same = kept(answers) == (old.records.clone(), old.starts);
            assert!(same, "log {i}");
        }
        if let Some(leveldb) = leveldb() {
            let read = leveldb.read(&old.log);
            let dropped = read.as_ref().err();
            assert!(read.as_ref() == Ok(&old.records), "log {i}: {dropped:?}");
        }
    }
}

/// A byte in the FIRST or in a MIDDLE, or another fragment than a FULL or FIRST: something is lost.
/// The other fragment is of type 7, since LevelDB's reader takes type 5 for the end of the file.
#[test]
fn with_a_record_interrupted_leveldb_drops_something() {
    let full = (FULL, &b"afresh"[..]);
    let rows: [&Fragments; 4] = [
        &[(FIRST, b"begun"), full],
        &[(FIRST, b"begun"), (FIRST, b"af"), (LAST, b"resh")],
        &[(FIRST, b""), (MIDDLE, b"begun"), full],
        &[(FIRST, b""), (7, b"unknown"), full],
    ];
    for (i, fragments) in rows.into_iter().enumerate() {
        let log = laid(fragments);
        let answers: Vec<Answer> = Reading::of(&log).expect("no refusal").collect();
        assert!(of(Reason::Interrupted)(&answers[0]), "log {i}: {answers:?}");
        let Some(leveldb) = leveldb() else { continue };
        let read = leveldb.read(&log);
        let said = read.as_ref().err();
        let dropped = said.is_some_and(|said| said.contains("dropped"));
        assert!(dropped, "log {i}: {read:?}");
    }
}
