//! Journals that LevelDB wrote, read here, and journals written here, read by LevelDB: by its own
//! log classes, where its library is installed.

#[path = "leveldb/dirty_trailer.rs"]
mod dirty_trailer;
mod interop;
#[path = "leveldb/old_writer.rs"]
mod old_writer;
mod random;

use interop::leveldb;
use mellansko::{append, Answer, Feed, Reading, Tail, BLOCK, LONGEST_RECORD};
use random::Random;
use reference::log::HEADER;
use reference::samples;

const CLEAN: &[u8] = include_bytes!("../../../samples/clean.log");
const DAMAGED: &[u8] = include_bytes!("../../../samples/damaged.log");
const LEVELDB: &[u8] = include_bytes!("../../../samples/leveldb.log");

/// Lengths of pieces: inside a header, across blocks' ends, a block, and more than one.
const PIECES: [usize; 4] = [1, 1_000, BLOCK, 3 * BLOCK + 1];

/// The bytes of a record that is long, where the longest would take long as well.
const LONG: usize = 8 * BLOCK;

#[test]
fn what_leveldb_writes_reads_back_and_is_what_is_written_here() {
    let Some(leveldb) = leveldb() else { return };
    for list in lists() {
        let log = leveldb.write(&list.records);
        assert!(read(&log) == list.records, "read, {}", list.name);
        assert!(written(&list.records) == log, "written, {}", list.name);
    }
}

#[test]
fn what_leveldb_writes_reads_back_fed_in_pieces() {
    let Some(leveldb) = leveldb() else { return };
    for list in lists() {
        let log = leveldb.write(&list.records);
        // The longest logs come in longer pieces.
        let first = usize::from(log.len() > LONGEST_RECORD);
        for length in &PIECES[first..] {
            let records = fed(&log, *length);
            assert!(records == list.records, "pieces of {length}, {}", list.name);
        }
    }
}

#[test]
fn what_is_written_here_leveldb_reads() {
    let Some(leveldb) = leveldb() else { return };
    for list in lists() {
        let records = leveldb.read(&written(&list.records));
        assert!(
            records.as_ref() == Ok(&list.records),
            "{}: {:?}",
            list.name,
            records.err()
        );
    }
}

/// That it drops nothing says something only if it would say so.
#[test]
fn leveldb_says_what_it_drops() {
    let Some(leveldb) = leveldb() else { return };
    let said = leveldb.read(DAMAGED).expect_err("a damaged log");
    assert!(said.contains("dropped"), "{said}");
}

/// The journal that LevelDB kept for a database: a record for each put, with what was put at its end.
#[test]
fn the_sample_that_leveldb_wrote() {
    let records = read(LEVELDB);
    let puts = samples::puts();
    assert_eq!(records.len(), puts.len());
    for (record, put) in records.iter().zip(&puts) {
        assert!(record.ends_with(put.as_bytes()), "{put}");
    }
    for length in PIECES {
        assert!(fed(LEVELDB, length) == records, "pieces of {length}");
    }
    agree(LEVELDB, &records);
}

#[test]
fn the_clean_sample() {
    let records = read(CLEAN);
    let day = samples::clean().records;
    assert!(records == day.into_iter().map(String::into_bytes).collect::<Vec<_>>());
    agree(CLEAN, &records);
}

/// That a log's records, written here, are the log, and that LevelDB finds the same in it.
fn agree(log: &[u8], records: &[Vec<u8>]) {
    assert!(written(records) == log);
    if let Some(leveldb) = leveldb() {
        assert!(leveldb.read(log).as_deref() == Ok(records));
    }
}

/// The records of a log in which nothing is in doubt and whose end is clean.
fn read(log: &[u8]) -> Vec<Vec<u8>> {
    records_of(Reading::of(log).expect("no refusal").collect())
}

/// The same by the reader that is fed, in pieces of this length.
fn fed(log: &[u8], length: usize) -> Vec<Vec<u8>> {
    records_of(fed_answers(log, length))
}

fn fed_answers(log: &[u8], length: usize) -> Vec<Answer<'static>> {
    let (mut feed, mut answers) = (Feed::new(), Vec::new());
    for piece in log.chunks(length) {
        answers.extend(feed.push(piece).expect("no refusal"));
    }
    feed.end();
    answers.extend(feed.certain());
    answers
}

fn records_of(mut answers: Vec<Answer>) -> Vec<Vec<u8>> {
    assert_eq!(answers.pop(), Some(Answer::End(Tail::Clean)));
    let record = |answer| match answer {
        Answer::Record { bytes, .. } => bytes.into_owned(),
        Answer::Skip(skip) => panic!("in doubt: {skip}"),
        Answer::End(_) => panic!("an end before the last answer"),
    };
    answers.into_iter().map(record).collect()
}

/// The log that is written here. The slice held other bytes before: what is not written shows.
fn written(records: &[Vec<u8>]) -> Vec<u8> {
    let fragments = |record: &Vec<u8>| record.len() / (BLOCK - HEADER) + 3;
    let size = |record: &Vec<u8>| record.len() + HEADER * fragments(record);
    let mut log = vec![0xA5; records.iter().map(size).sum()];
    let mut mark = 0;
    for record in records {
        mark = append(&mut log, mark, record).expect("room for it");
    }
    log.truncate(mark);
    log
}

struct List {
    name: String,
    records: Vec<Vec<u8>>,
}

/// Lists of records: at the edges, then random ones.
fn lists() -> Vec<List> {
    let mut random = Random::new();
    // Shown where the test fails, wherever that is.
    println!("{random}");
    let mut lists: Vec<Vec<Vec<u8>>> = Vec::new();
    for lengths in edges() {
        let record = |length: &usize| random.bytes(*length);
        lists.push(lengths.iter().map(record).collect());
    }
    for _ in 0..60 {
        lists.push(random_records(&mut random));
    }
    let named = |records: Vec<Vec<u8>>| {
        let lengths: Vec<usize> = records.iter().map(Vec::len).collect();
        let name = format!("records of {lengths:?} bytes");
        List { name, records }
    };
    lists.into_iter().map(named).collect()
}

/// Lengths of records: none; each length near an edge alone, and all of them in one log; and a first
/// record that leaves 0 to 8 bytes of its block, with others after it.
fn edges() -> Vec<Vec<usize>> {
    let room = BLOCK - HEADER;
    let mut single = vec![0, 1, 2, 1_000, LONG, LONGEST_RECORD - 1, LONGEST_RECORD];
    single.extend(room - 8..=room + 8);
    single.extend(2 * room - 8..=2 * room + 8);
    let mut lists = vec![vec![], single.clone()];
    lists.extend(single.iter().map(|&length| vec![length]));
    for left in 0..=8 {
        for second in [0, 1, 2, room - 1, room, room + 1, 2 * room, LONG] {
            lists.push(vec![room - left, second, 10]);
        }
    }
    lists
}

/// Records of every scale, and such as end near a block's end.
fn random_records(random: &mut Random) -> Vec<Vec<u8>> {
    let mut records = Vec::new();
    let mut log = vec![0; 1 << 22];
    let mut mark = 0;
    for _ in 0..random.below(40) {
        let left = BLOCK - mark % BLOCK;
        let length = match random.below(19) {
            0..=3 => (left + 4).saturating_sub(random.below(24)),
            scale => random.below(1 << scale.min(16)),
        };
        records.push(random.bytes(length));
        mark = append(&mut log, mark, &records[records.len() - 1]).expect("room for it");
    }
    let length = random.below(LONG + 1);
    records.push(random.bytes(length));
    records
}
