//! The files in `samples/`: that they are those which `samples/make` makes, and that they read as
//! samples/README.md says.

use reference::log::{
    fragment, next, record_bytes, Next, Tail, BLOCK, FIRST, FULL, HEADER, LAST, LONGEST_RECORD,
    MIDDLE,
};
use reference::samples::{self, Journal};

const CLEAN: &[u8] = include_bytes!("../../../samples/clean.log");
const TORN: &[u8] = include_bytes!("../../../samples/torn.log");
const DAMAGED: &[u8] = include_bytes!("../../../samples/damaged.log");
const LEVELDB: &[u8] = include_bytes!("../../../samples/leveldb.log");
const OLD_WRITER: &[u8] = include_bytes!("../../../samples/old_writer.log");

#[test]
fn are_what_this_crate_makes() {
    let again = "samples/make makes it again";
    assert!(CLEAN == samples::clean().log, "clean.log: {again}");
    assert!(TORN == samples::torn(), "torn.log: {again}");
    assert!(DAMAGED == samples::damaged(), "damaged.log: {again}");
    let old_writer = samples::old_writer().log;
    assert!(OLD_WRITER == old_writer, "old_writer.log: {again}");
}

#[test]
fn clean_reads_as_the_day() {
    let day = samples::clean();
    let mut answers = records(&day, 0..day.records.len());
    answers.push(Answer::End(Tail::Clean));
    same(&read(CLEAN), &answers);
}

/// What a sample is for: each case of the format comes up in it.
#[test]
fn clean_has_every_case() {
    let mut kinds = [0; 5];
    let (mut empty_firsts, mut trailers) = (0, 0);
    let mut place = 0;
    while place < CLEAN.len() {
        let left = BLOCK - place % BLOCK;
        if left < HEADER {
            trailers += 1;
            place += left;
            continue;
        }
        let length = usize::from(u16::from_le_bytes([CLEAN[place + 4], CLEAN[place + 5]]));
        let kind = CLEAN[place + 6];
        kinds[usize::from(kind)] += 1;
        empty_firsts += usize::from(kind == FIRST && length == 0 && left == HEADER);
        place += HEADER + length;
    }
    // The factors have a FIRST, a MIDDLE and a LAST, the second start list a FIRST and a LAST.
    assert_eq!(
        [FIRST, MIDDLE, LAST].map(|kind| kinds[usize::from(kind)]),
        [2, 1, 2]
    );
    assert_eq!((empty_firsts, trailers), (1, 1));
    let longest = samples::clean().records.iter().map(String::len).max();
    assert!(longest > Some(BLOCK));
}

#[test]
fn torn_ends_inside_the_last_finish() {
    let day = samples::clean();
    let last = samples::last_finish(&day);
    assert!(day.records[last + 1..]
        .iter()
        .all(|record| !record.starts_with("finish")));
    let (start, end) = day.span(last);
    assert!(start < TORN.len() && TORN.len() < end);
    assert!(TORN == &CLEAN[..TORN.len()]);

    let mut answers = records(&day, 0..last);
    answers.push(Answer::End(Tail::Torn(start)));
    same(&read(TORN), &answers);
}

/// This season's factors are in doubt, and nothing else is: last season's come before them.
#[test]
fn damaged_has_this_seasons_factors_in_doubt() {
    let changed: Vec<usize> = (0..CLEAN.len())
        .filter(|&i| CLEAN[i] != DAMAGED[i])
        .collect();
    assert_eq!((DAMAGED.len(), changed.len()), (CLEAN.len(), 2));
    assert!(
        changed.iter().all(|place| place / BLOCK == 1),
        "{changed:?}"
    );

    let day = samples::clean();
    let season = |name: &str| {
        let begin = format!("factors of the season {name}\n");
        let mut records = day.records.iter();
        let found = records.position(|record| record.starts_with(&begin));
        found.expect("a table of the season")
    };
    let (last, this) = (season("2025/26"), season("2026/27"));
    assert!(last < this);
    let (start, end) = day.span(this);

    let mut answers = records(&day, 0..this);
    answers.extend([
        Answer::Skip(start, BLOCK, 4),
        Answer::Skip(BLOCK, 2 * BLOCK, 3),
        Answer::Skip(2 * BLOCK, end, 5),
    ]);
    answers.extend(records(&day, this + 1..day.records.len()));
    answers.push(Answer::End(Tail::Clean));
    same(&read(DAMAGED), &answers);
}

/// Where a record begins afresh, an empty start comes before it, and nothing else is skipped.
#[test]
fn old_writer_has_two_empty_starts() {
    let day = samples::old_writer();
    let mut answers = Vec::new();
    let (mut end, mut afresh) = (0, Vec::new());
    for (i, answer) in records(&day, 0..day.records.len()).into_iter().enumerate() {
        let (start, record_end) = day.span(i);
        if start > end {
            assert_eq!((start - end, start % BLOCK), (HEADER, 0));
            assert_eq!(OLD_WRITER[end..start], fragment(FIRST, b""));
            answers.push(Answer::Skip(end, start, 8));
            afresh.push((OLD_WRITER[start + 6], day.records[i].len() > BLOCK));
        }
        answers.push(answer);
        end = record_end;
    }
    answers.push(Answer::End(Tail::Clean));
    same(&read(OLD_WRITER), &answers);
    // This season's factors, which are longer than a block, and a start.
    assert_eq!(afresh, [(FIRST, true), (FULL, false)]);
}

/// What was noted is what the whole day begins with, but for the clocks and the last record.
#[test]
fn old_writer_is_of_the_same_day() {
    let noted = |journal: Journal| {
        let records = journal.records.into_iter();
        let noted = records.filter(|record| !record.starts_with("clocks"));
        noted.collect::<Vec<_>>()
    };
    let (mut old, day) = (noted(samples::old_writer()), noted(samples::clean()));
    let last = old.pop().expect("records");
    assert!(last.starts_with("journal closed"), "{last}");
    assert!(old == day[..old.len()]);
    assert!(day[old.len()].starts_with("start list of run 2"));
}

/// One record for each put, with the bytes of a batch as LevelDB lays it out: the put's number in 8
/// bytes, how many puts the batch has in 4, both lowest first, then a 1 for a put, the key and the
/// value, each after its length.
#[test]
fn leveldb_has_each_put() {
    let puts = samples::puts();
    assert!(puts.iter().any(|put| put.len() > BLOCK));
    let mut batches: Vec<Vec<u8>> = Vec::new();
    for (number, put) in (1u64..).zip(&puts) {
        let mut batch = [&number.to_le_bytes()[..], &[1, 0, 0, 0, 1]].concat();
        for part in [&number.to_string(), put] {
            batch.extend(varint(part.len()));
            batch.extend(part.as_bytes());
        }
        batches.push(batch);
    }
    let mut answers = read(LEVELDB);
    assert_eq!(answers.pop(), Some(Answer::End(Tail::Clean)));
    assert_eq!(answers.len(), puts.len());
    for (answer, batch) in answers.into_iter().zip(batches) {
        let Answer::Record(start, _, bytes) = answer else {
            panic!("{answer:?}");
        };
        assert!(bytes == batch, "the record at {start}");
    }
}

/// Of each file: its length, how many records it has, and every place at which it is in doubt or torn.
#[test]
fn have_the_figures_of_their_readme() {
    let readme = include_str!("../../../samples/README.md");
    let files = [
        ("clean", CLEAN),
        ("torn", TORN),
        ("damaged", DAMAGED),
        ("leveldb", LEVELDB),
        ("old_writer", OLD_WRITER),
    ];
    for (name, log) in files {
        let mut lines = readme.lines();
        let begin = format!("| `{name}.log` |");
        let row = lines.find(|line| line.starts_with(&begin));
        let row = row.expect("a row of the file");
        let answers = read(log);
        let is_record = |answer: &&Answer| matches!(answer, Answer::Record(..));
        let records = answers.iter().filter(is_record).count();
        let mut said = vec![
            format!("; {} bytes |", grouped(log.len())),
            format!("| {} records,", grouped(records)),
        ];
        said.extend(answers.iter().filter_map(in_the_readme));
        for part in said {
            assert!(row.contains(&part), "{part:?} in the row of {name}.log");
        }
    }
}

/// How samples/README.md puts an answer that is no record.
fn in_the_readme(answer: &Answer) -> Option<String> {
    match *answer {
        Answer::Record(..) => None,
        Answer::Skip(start, end, reason) => {
            let name = match reason {
                3 => "checksum",
                4 => "interrupted",
                5 => "orphan",
                8 => "empty start",
                _ => panic!("{answer:?} in a sample"),
            };
            let (start, end) = (grouped(start), grouped(end));
            Some(format!("{start} to {end} {name} ({reason})"))
        }
        Answer::End(Tail::Clean) => Some("a clean end".to_string()),
        Answer::End(Tail::Torn(place)) => Some(format!("torn from {} on", grouped(place))),
    }
}

/// A number below a million, as 12,345.
fn grouped(number: usize) -> String {
    match number / 1_000 {
        0 => number.to_string(),
        thousands => format!("{thousands},{:03}", number % 1_000),
    }
}

/// A number in parts of 7 bits, lowest first, each but the last with its high bit set.
fn varint(mut number: usize) -> Vec<u8> {
    let mut bytes = Vec::new();
    while number >= 128 {
        bytes.push(number as u8 | 128);
        number /= 128;
    }
    bytes.push(number as u8);
    bytes
}

#[derive(Debug, PartialEq)]
enum Answer {
    Record(usize, usize, Vec<u8>),
    Skip(usize, usize, u8),
    End(Tail),
}

/// The answers that records are as the day wrote them.
fn records(day: &Journal, which: std::ops::Range<usize>) -> Vec<Answer> {
    let record = |i: usize| {
        let (start, end) = day.span(i);
        Answer::Record(start, end, day.records[i].clone().into_bytes())
    };
    which.map(record).collect()
}

/// Every answer from place 0 to the end.
fn read(log: &[u8]) -> Vec<Answer> {
    let mut buffer = vec![0; LONGEST_RECORD];
    let mut answers = Vec::new();
    let mut place = 0;
    loop {
        let next = next(log, place, LONGEST_RECORD, &mut buffer);
        let bytes = record_bytes(log, &buffer, &next).to_vec();
        place = next.place_after(log);
        match next {
            Next::Record { start, end, .. } => answers.push(Answer::Record(start, end, bytes)),
            Next::Skip { start, end, reason } => answers.push(Answer::Skip(start, end, reason)),
            Next::End(tail) => {
                answers.push(Answer::End(tail));
                return answers;
            }
            Next::Refused { .. } => panic!("{next:?}"),
        }
    }
}

/// Shows the first answer that differs, and not two whole days.
fn same(read: &[Answer], expected: &[Answer]) {
    for (read, expected) in read.iter().zip(expected) {
        assert_eq!(read, expected);
    }
    assert_eq!(read.len(), expected.len());
}
