//! Dirty trailers (docs/FORMAT.md, §14): its examples, each byte of trailers of every length, and how
//! many calls a reading takes with as many of them as there can be (§6.3).

mod expected;
mod fed;
mod random;

use fed::{moments, of_the_whole, told, written};
use mellansko::{mend, next, records, Answer, Feed, Mended, Next, Reading, Record, Stored};
use mellansko::{Reason, Skip, Tail, BLOCK, LONGEST_RECORD};
use random::Random;
use reference::log::{fragment, FIRST, FULL, HEADER, LAST, MIDDLE};

/// An answer of a reading as the format page writes it.
fn line(answer: Answer) -> String {
    match answer {
        Answer::Record { record, .. } => of_record(record),
        Answer::Skip(Skip { start, end, reason }) => {
            format!("skipped {start} to {end}, reason {}", reason.number())
        }
        Answer::End(tail) => format!("end, {tail}"),
    }
}

fn of_record(record: Record) -> String {
    let place = match record.stored {
        Stored::Whole(place) => format!("whole from {place}"),
        Stored::Gathered => "gathered".into(),
    };
    format!("record {} to {}, {place}", record.start, record.end)
}

fn read(log: &[u8]) -> Vec<String> {
    Reading::of(log).expect("no refusal").map(line).collect()
}

/// The log of §9.2, whose trailer is clean, and that of §14.7.
fn logs() -> [Vec<u8>; 2] {
    let mut log = written(&mut Random::new(), &[1_000, 97_270, 8_000]);
    let clean = log.clone();
    assert_eq!(clean.len(), 106_311);
    log[98_300] = 1;
    [clean, log]
}

const A: &str = "record 0 to 1007, whole from 7";
const B: &str = "record 1007 to 98298, gathered";
const C: &str = "record 98304 to 106311, whole from 98311";

#[test]
fn of_the_examples() {
    let [_, log] = logs();
    let end = "end, clean";
    let skipped = "skipped 98298 to 98304, reason 9";
    assert_eq!(read(&log), [A, B, skipped, C, end]);
    let skipped = "skipped 98298 to 98301, reason 9";
    assert_eq!(read(&log[..98_301]), [A, B, skipped, end]);
    assert_eq!(read(&log[..98_300]), [A, B, end]);
    let Ok((Next::Record(record), 106_311)) = next(&log, 98_301, 0x2000, &mut [0; 0x2000]) else {
        panic!("what comes after the byte is clean");
    };
    assert_eq!(of_record(record), C);
}

#[test]
fn mended_they_are_counted_and_left_out() {
    let [clean, log] = logs();
    let mut fresh = vec![0x5A; log.len()];
    let mut buffer = vec![0; LONGEST_RECORD];
    let mended = mend(&log, &mut fresh, LONGEST_RECORD, &mut buffer);
    let (length, skipped) = (106_311, 6);
    assert_eq!(mended, Ok(Mended { length, skipped }));
    assert!(fresh == clean);
}

/// The strict way hands out nothing, as with any other doubt.
#[test]
fn with_one_a_log_is_not_whole() {
    let [clean, log] = logs();
    let error = records(&log).unwrap_err();
    let words = "the bytes that fill up a block are not all zero";
    let expected = format!("the log is in doubt from 98298 to 98304: {words}");
    assert_eq!(error.to_string(), expected);
    assert!(records(&clean).is_ok());
}

/// How many bytes have come when an answer is given, before the end is announced.
#[test]
fn fed_in_pieces_they_wait_for_the_end_of_the_block_or_of_the_log() {
    let [_, log] = logs();
    assert_eq!(
        moments(&log, LONGEST_RECORD),
        [1_007, 98_298, 98_304, 106_311]
    );
    let cut = &log[..98_301];
    assert_eq!(moments(cut, LONGEST_RECORD), [1_007, 98_298]);
    let mut feed = Feed::new();
    assert_eq!(feed.push(cut).expect("no refusal").count(), 2);
    feed.end();
    let (start, end, reason) = (98_298, 98_301, Reason::DirtyTrailer);
    let rest = [
        Answer::Skip(Skip { start, end, reason }),
        Answer::End(Tail::Clean),
    ];
    assert!(feed.certain().eq(rest));
}

/// The second table: a FULL, an empty FIRST, the trailer, and an empty LAST in the next block.
#[test]
fn of_a_record_that_is_open() {
    let with = |trailer: [u8; 6]| {
        let (full, first) = (fragment(FULL, &[1; 32_748]), fragment(FIRST, b""));
        [&full[..], &first, &trailer, &fragment(LAST, b"")].concat()
    };
    let (full, end) = ("record 0 to 32755, whole from 7", "end, clean");
    let open = "record 32755 to 32775, gathered";
    assert_eq!(read(&with([0; 6])), [full, open, end]);
    let skipped = [
        "skipped 32755 to 32762, reason 4",
        "skipped 32762 to 32768, reason 9",
        "skipped 32768 to 32775, reason 5",
    ];
    let [interrupted, dirty, orphan] = skipped;
    let last = with([0, 0, 0, 0, 0, 1]);
    assert_eq!(read(&last), [full, interrupted, dirty, orphan, end]);
    let first = with([1, 0, 0, 0, 0, 0]);
    assert_eq!(read(&first), read(&last));
    assert_eq!(moments(&with([0; 6]), 32_748), [32_755, 32_775]);
    assert_eq!(moments(&last, 32_748), [32_755, 32_768, 32_768, 32_775]);
    assert_eq!(moments(&first, 32_748), [32_755, 32_763, 32_768, 32_775]);
}

/// Any byte that is not zero, in a trailer of any length, after a record and with one open; all of
/// the log, and cut right after that byte. By the reference too, and fed.
#[test]
fn each_byte_of_each_trailer() {
    for (left, kind) in (1..HEADER).flat_map(|left| [(left, FULL), (left, FIRST)]) {
        let begin = BLOCK - left;
        for place in begin..BLOCK {
            let mut log = fragment(kind, &vec![1; begin - HEADER]);
            log.resize(BLOCK, 0);
            log[place] = [1, 0x80, 0xFF][place % 3];
            log.extend(fragment(FULL, b"LW12"));
            for (log, end) in [(&log[..], BLOCK), (&log[..=place], place + 1)] {
                let answers = of_the_whole(log, LONGEST_RECORD);
                let dirty = Skip {
                    start: begin,
                    end,
                    reason: Reason::DirtyTrailer,
                };
                assert_eq!(answers[1], told(Answer::Skip(dirty)), "{left}, {place}");
                let read = Reading::of(log).expect("no refusal");
                let skips = read.filter(|answer| *answer == Answer::Skip(dirty));
                assert_eq!(skips.count(), 1, "{left}, {place}");
                let mut feed = Feed::new();
                let mut fed: Vec<_> = feed.push(log).expect("no refusal").map(told).collect();
                feed.end();
                fed.extend(feed.certain().map(told));
                assert!(fed == answers, "{left}, {place}");
            }
        }
    }
}

/// As many answers as a log can have: 4,681 of seven bytes and a trailer of one in each block. Up to
/// six blocks that is the bound of §6.3; the seventh makes it greater than what the log takes.
#[test]
fn no_reading_takes_more_calls_than_the_bound() {
    for kind in [FULL, MIDDLE] {
        let block = [fragment(kind, b"").repeat(4_681), vec![1]].concat();
        assert_eq!(block.len(), BLOCK);
        for blocks in 1..=7 {
            let log = block.repeat(blocks);
            let (mut place, mut calls) = (0, 0);
            loop {
                let (answer, on) = next(&log, place, 0, &mut []).expect("no refusal");
                calls += 1;
                let least = match answer {
                    Next::End(tail) => break assert_eq!(tail, Tail::Clean),
                    Next::Skip(skip) if skip.reason == Reason::DirtyTrailer => 1,
                    _ => HEADER,
                };
                assert_eq!(on - place, least, "at {place}");
                place = on;
            }
            assert_eq!(calls, 4_682 * blocks + 1);
            let bound = log.len() / HEADER + 1 + log.len().div_ceil(BLOCK);
            assert_eq!(bound - calls, blocks / 7, "{blocks} blocks");
        }
    }
}
