//! Any bytes as a log: every record that a call answers (§16.3), every record of the mended log
//! (§16.6), and the same from the fed reader (§16.7).

use crate::appends::as_appended;
use crate::fed::same_in_pieces;
use crate::hurt::hurt;
use crate::make::{any_length, headers, pick, written_log};
use crate::random::Random;
use crate::reading::reading;
use crate::walk::{hold, one_exactly_if_whole, Met};
use crate::{dirty, mixed, starts, trailers};
use reference::log::{next, Next, Tail, BLOCK, HEADER, LONGEST_RECORD};
use reference::mend::{mend, Mended};

/// At a limit that no record is over, and at one that is a record's length or just below it.
fn everything(random: &mut Random, met: &mut Met, log: &[u8]) {
    let high = log.len().min(LONGEST_RECORD);
    let lengths: Vec<usize> = reading(log, high).iter().map(length).collect();
    let low = pick(random, &lengths).saturating_sub(random.below(2));
    for limit in [high, low] {
        let answers = reading(log, limit);
        met.hold(log, &answers);
        same_in_pieces(random, log, limit, &answers);
        mended(log, limit);
        anywhere(random, log, limit);
    }
}

/// How many bytes a record has; 0 for any other answer.
fn length(answer: &Next) -> usize {
    match *answer {
        Next::Record { length, .. } => length,
        _ => 0,
    }
}

/// Calls at any place: what stands there is taken for a header, or for a trailer. A header may be
/// there, of a record or in the middle of one.
fn anywhere(random: &mut Random, log: &[u8], limit: usize) {
    let mut buffer = vec![0; limit];
    let mut headers = headers(log);
    headers.push(log.len());
    for _ in 0..8 {
        let any = random.below(log.len() + 1);
        let near_an_end = (any / BLOCK * BLOCK + BLOCK - random.below(12)).min(log.len());
        for place in [any, near_an_end, pick(random, &headers)] {
            let answer = next(log, place, limit, &mut buffer);
            one_exactly_if_whole(&answer);
            if let Next::Record { start, .. } = answer {
                assert!((place..place + HEADER).contains(&start));
                hold(log, &answer);
            }
        }
    }
}

/// The mended log's records have the numbers of §16.5 for their places there.
fn mended(bad: &[u8], limit: usize) {
    let mut fresh = vec![0xA5; bad.len()];
    let answer = mend(bad, &mut fresh, limit, &mut vec![0; limit]);
    let Mended::Log { length, .. } = answer else {
        panic!("{answer:?}");
    };
    fresh.truncate(length);
    let mut answers = reading(&fresh, limit);
    assert_eq!(answers.pop(), Some(Next::End(Tail::Clean)));
    for answer in answers {
        as_appended(&answer);
        hold(&fresh, &answer);
    }
}

#[test]
fn of_random_bytes() {
    let random = &mut Random::new();
    println!("{random}");
    let met = &mut Met::default();
    for round in 0..200 {
        let length = any_length(random, if round % 5 == 0 { 17 } else { 9 });
        let log = random.bytes(length);
        everything(random, met, &log);
    }
}

#[test]
fn of_fragments_as_no_writer_puts_them() {
    let random = &mut Random::new();
    println!("{random}");
    let met = &mut Met::default();
    for round in 0..1_600 {
        let blocks = if round % 2 == 0 { random.below(4) } else { 0 };
        let length = random.below(400) + blocks * BLOCK;
        let log = mixed::log(random, length);
        everything(random, met, &log);
    }
    met.at_least(10);
}

/// And with empty starts, or with one trailer, of zeros or dirty.
#[test]
fn of_starts_and_trailers() {
    let random = &mut Random::new();
    println!("{random}");
    let met = &mut Met::default();
    for _ in 0..250 {
        let blocks = 1 + random.below(3);
        let logs = [
            starts::log(random),
            trailers::log(random),
            dirty::log(random, blocks),
        ];
        for log in logs {
            everything(random, met, &log);
        }
    }
    met.at_least(5);
}

#[test]
fn of_journals_damaged() {
    let random = &mut Random::new();
    println!("{random}");
    let met = &mut Met::default();
    for _ in 0..400 {
        let records = 1 + random.below(6);
        let mut log = written_log(random, records);
        let other = written_log(random, 3);
        for _ in 0..1 + random.below(3) {
            hurt(random, &mut log, &other);
        }
        everything(random, met, &log);
    }
    println!("{met:?}");
    // No append leaves a trailer inside a record, and damage rarely does.
    assert!(met.one >= 200 && met.two >= 20 && met.more >= 8, "{met:?}");
}
