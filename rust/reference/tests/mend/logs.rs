//! Any bytes as a log: random ones, fragments as no writer puts them, and damaged journals, at
//! limits that some records are over.

use crate::dirty::{self, Met};
use crate::hurt::hurt;
use crate::make::{any_length, pick, written_log};
use crate::mixed;
use crate::promises::hold;
use crate::random::Random;
use crate::reading::reading;
use reference::feed;
use reference::log::{BLOCK, LONGEST_RECORD};

/// At a limit that no record is above, and at one that is a record's length or just below it.
fn hold_at_limits(random: &mut Random, bad: &[u8]) {
    let most = bad.len().min(LONGEST_RECORD);
    hold(random, bad, most);
    let lengths: Vec<usize> = reading(bad, most, &vec![0; most])
        .records
        .iter()
        .map(Vec::len)
        .collect();
    if !lengths.is_empty() {
        let limit = pick(random, &lengths).saturating_sub(random.below(2));
        hold(random, bad, limit);
    }
}

#[test]
fn of_random_bytes() {
    let random = &mut Random::new();
    println!("{random}");
    for round in 0..300 {
        let length = match round % 10 {
            0 => any_length(random, 17),
            _ => any_length(random, 9),
        };
        let bad = random.bytes(length);
        hold_at_limits(random, &bad);
    }
}

#[test]
fn of_fragments_as_no_writer_puts_them() {
    let random = &mut Random::new();
    println!("{random}");
    let met = &mut Met::default();
    for round in 0..1_000 {
        let blocks = if round % 5 == 0 { random.below(4) } else { 0 };
        let length = random.below(400) + blocks * BLOCK;
        let bad = mixed::log(random, length);
        hold_at_limits(random, &bad);
        met.count(&feed::reading(&bad, bad.len()));
    }
    met.at_least(3, 3);
}

/// Dirty trailers are skipped and counted, those of zeros are not, and no record is lost with
/// either unless it is interrupted.
#[test]
fn of_blocks_that_end_in_trailers() {
    let random = &mut Random::new();
    println!("{random}");
    let met = &mut Met::default();
    for _ in 0..200 {
        let blocks = 1 + random.below(3);
        let bad = dirty::log(random, blocks);
        hold_at_limits(random, &bad);
        met.count(&feed::reading(&bad, bad.len()));
    }
    met.at_least(15, 20);
}

#[test]
fn of_journals_damaged() {
    let random = &mut Random::new();
    println!("{random}");
    for _ in 0..60 {
        let records = 1 + random.below(6);
        let mut bad = written_log(random, records);
        let other = written_log(random, 3);
        for _ in 0..1 + random.below(3) {
            hurt(random, &mut bad, &other);
        }
        hold_at_limits(random, &bad);
    }
}
