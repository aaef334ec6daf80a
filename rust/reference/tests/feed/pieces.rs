//! *Fed anyhow* and *held between* (§11.12): pieces of any lengths, answers drawn at any moments.

use crate::dirty::{self, Met};
use crate::fed::Fed;
use crate::make;
use crate::random::Random;
use reference::feed::Told;
use reference::log::{Next, BLOCK, HEADER, LONGEST_LOG, LONGEST_RECORD};
use std::sync::LazyLock;

/// A piece that is too long by a byte at a log's start. Of zeros, since those take no memory until
/// they are touched.
static TOO_LONG: LazyLock<Vec<u8>> = LazyLock::new(|| vec![0; LONGEST_LOG + 1]);

/// Pieces of up to `most` bytes, none among them, with answers drawn in between or not. Gives the
/// answers.
fn fed(random: &mut Random, log: &[u8], limit: usize, most: usize) -> Vec<Next> {
    let mut fed = Fed::new(random, log, limit);
    while fed.came() < log.len() {
        let (offered, taken) = fed.offer(random.below(most + 1));
        // The rest of the piece is offered again, with more of the log or less.
        if taken < offered {
            fed.draw_all();
            fed.check_remembered();
        }
        if random.below(2) == 0 {
            draw_some(random, &mut fed);
        }
        if random.below(16) == 0 {
            fed.refused(&TOO_LONG);
        }
    }
    for _ in 0..1 + random.below(2) {
        fed.end();
        if random.below(2) == 0 {
            fed.draw();
        }
        fed.refused(&TOO_LONG);
    }
    fed.finish();
    fed.answers
}

fn draw_some(random: &mut Random, fed: &mut Fed) {
    for _ in 0..random.below(4) {
        if fed.draw() == Told::NotYet && random.below(8) == 0 {
            fed.check_remembered();
        }
    }
}

#[test]
fn of_short_logs() {
    let random = &mut Random::new();
    println!("{random}");
    for _ in 0..3_000 {
        let length = random.below(80);
        let log = make::log(random, length, 12);
        let limit = make::pick(random, &[0, 1, 8, 20, 60]);
        let most = make::pick(random, &[1, 3, 20, 100]);
        fed(random, &log, limit, most);
    }
}

#[test]
fn of_logs_around_a_blocks_end() {
    let random = &mut Random::new();
    println!("{random}");
    let met = &mut Met::default();
    for _ in 0..150 {
        // So few that it is a trailer, or any.
        let most = make::pick(random, &[HEADER, 40]);
        let before = random.below(most);
        let length = BLOCK - 10 + random.below(50);
        let mut log = make::near_the_end(random, before, length);
        let limit = make::pick(random, &[30, BLOCK, 2 * BLOCK]);
        let most = make::pick(random, &[50, 2_000, 50_000]);
        met.count(&fed(random, &log, limit, most));
        // The first fragment spoilt: the block is given up.
        let place = random.below(BLOCK - 100);
        log[place] ^= 1;
        fed(random, &log, limit, most);
    }
    met.at_least(3, 1);
}

#[test]
fn of_blocks_that_end_in_trailers() {
    let random = &mut Random::new();
    println!("{random}");
    let met = &mut Met::default();
    for _ in 0..200 {
        let blocks = 1 + random.below(3);
        let log = dirty::log(random, blocks);
        let limit = make::pick(random, &[9, BLOCK, 3 * BLOCK]);
        let most = make::pick(random, &[700, 9_000, 50_000]);
        met.count(&fed(random, &log, limit, most));
    }
    met.at_least(20, 10);
}

#[test]
fn of_long_logs() {
    let random = &mut Random::new();
    println!("{random}");
    for _ in 0..60 {
        let length = random.below(4 * BLOCK);
        let longest = make::pick(random, &[300, 9_000, 50_000]);
        let log = make::log(random, length, longest);
        let limit = make::pick(random, &[0, 1_000, 40_000, 262_144]);
        let most = make::pick(random, &[500, 5_000, 40_000, 200_000]);
        fed(random, &log, limit, most);
    }
}

/// As the writer puts them, damaged here and there.
#[test]
fn of_records_damaged() {
    let random = &mut Random::new();
    println!("{random}");
    for _ in 0..30 {
        let lengths: Vec<usize> = (0..8)
            .map(|_| {
                let scale = 1 << random.below(17);
                random.below(scale)
            })
            .collect();
        let mut log = make::written(random, &lengths);
        for _ in 0..random.below(3) {
            let place = random.below(log.len());
            log[place] ^= 1 << random.below(8);
        }
        let limit = make::pick(random, &[5_000, 100_000, 262_144]);
        fed(random, &log, limit, 10_000);
    }
}

/// The longest record, at the highest limit and at one that it is over by a byte.
#[test]
fn of_the_longest_record() {
    let random = &mut Random::new();
    println!("{random}");
    let log = make::written(random, &[9, LONGEST_RECORD, 9]);
    for (limit, records) in [(LONGEST_RECORD, 3), (LONGEST_RECORD - 1, 2)] {
        let answers = fed(random, &log, limit, 700_000);
        let handed_out = |answer: &&Next| matches!(answer, Next::Record { .. });
        assert_eq!(answers.iter().filter(handed_out).count(), records);
    }
}

/// Single bytes, and answers drawn after each of them.
#[test]
fn of_single_bytes() {
    let random = &mut Random::new();
    println!("{random}");
    for longest in [30, 9_000] {
        let log = make::log(random, BLOCK + 5_000, longest);
        let mut fed = Fed::new(random, &log, 10_000);
        while fed.came() < log.len() {
            assert_eq!(fed.offer(1), (1, 1));
            fed.draw_all();
        }
        fed.end();
        fed.finish();
    }
}
