//! States that are made up: of numbers that fit together, with one or more of them changed, and of
//! any numbers.

use crate::made::Made;
use crate::make::{any_length, pick, LONG};
use crate::pair::Pair;
use crate::random::Random;
use crate::words::Words;
use reference::log::{fragment, BLOCK, HEADER, LONGEST_LOG, LONGEST_RECORD};

pub fn all(random: &mut Random) -> Made {
    let mut made = Made::default();
    for round in 0..200 {
        // Most limits fit a buffer that is short to compare; some take a long one.
        let most = match round {
            0 => LONGEST_RECORD,
            _ if round % 20 == 0 => LONG,
            _ => 300,
        };
        let mut pair = Pair::new(most, random);
        for _ in 0..400 {
            let mut state = fitting(most, random);
            for _ in 0..random.below(3) {
                state[random.below(10)] = other(&state, random);
            }
            if random.below(50) == 0 {
                state = [(); 10].map(|()| edge(random));
            }
            pair.state = Words::new(state);
            lay(&mut pair, state[1] as usize % BLOCK, random);
            calls(&mut pair, random);
        }
        made += pair.made;
    }
    made
}

/// Numbers that fit together (docs/FORMAT.md, §11.3), at their edges or between them.
fn fitting(most: usize, random: &mut Random) -> [u64; 10] {
    let limit = between(0, most, random);
    // The last of them has no byte, but a log of the greatest length ends there.
    let start = between(0, LONGEST_LOG / BLOCK, random) * BLOCK;
    let end = LONGEST_LOG.min(start + BLOCK);
    let place = between(start, end.max(start + 1) - 1, random);
    let came = between(place, end, random);
    let over = random.below(2);
    let rest = if random.below(2) == 0 && place >= HEADER {
        open(limit, place, random)
    } else if came >= place + HEADER {
        [0, 0, 0, random.below(4), 0, 0]
    } else {
        [0; 6]
    };
    let state = [limit, place, came, over].into_iter().chain(rest);
    let state: Vec<u64> = state.map(|number| number as u64).collect();
    state.try_into().expect("ten numbers")
}

/// The numbers from opened on, of a record that is open at this place. Often it has one fragment, as
/// each has at first; else up to as many as there is room for, of which the last starts anywhere.
fn open(limit: usize, place: usize, random: &mut Random) -> [usize; 6] {
    let length = between(0, limit.min(place - HEADER), random);
    let most = (place - length) / HEADER;
    let fragments = match random.below(2) {
        0 => 1,
        _ => between(1, most, random),
    };
    let start = between(0, place - HEADER * fragments - length, random);
    let last_header = between(start, place - HEADER, random);
    [1, start, length, 0, fragments, last_header]
}

/// A number in this range, often the first or the last, or near them.
fn between(first: usize, last: usize, random: &mut Random) -> usize {
    let far = random.below(8).min(last - first);
    match random.below(5) {
        0 => first,
        1 => last,
        2 => first + far,
        3 => last - far,
        _ => first + random.below(last - first + 1),
    }
}

/// Something else for one of the numbers: near it, or near another, or an edge.
fn other(state: &[u64; 10], random: &mut Random) -> u64 {
    let number = state[random.below(10)];
    match random.below(4) {
        0 => number.wrapping_add(1),
        1 => number.wrapping_sub(1),
        2 => number.wrapping_add(HEADER as u64 * (random.next() % 3)),
        _ => edge(random),
    }
}

fn edge(random: &mut Random) -> u64 {
    let edges = [0, 1, 2, 3, 7, BLOCK, LONGEST_RECORD, LONGEST_LOG].map(|edge| edge as u64);
    let high = [1 << 16, 1 << 32, 1 << 63, u64::MAX, random.next()];
    let number = match random.below(2) {
        0 => pick(random, &edges),
        _ => pick(random, &high),
    };
    match random.below(3) {
        0 => number,
        1 => number.wrapping_sub(random.next() % 9),
        _ => number.wrapping_add(random.next() % 9),
    }
}

/// Puts fragments into the block from the state's place on, to be found there: of any types, some
/// of them not sound. Now and then the block keeps what it has.
fn lay(pair: &mut Pair, mut place: usize, random: &mut Random) {
    for _ in 0..random.below(5) {
        let most = any_length(random, 9);
        let length = random.below(most + 1);
        let mut bytes = fragment(random.below(6) as u8, &random.bytes(length));
        if random.below(6) == 0 {
            bytes[random.below(HEADER)] ^= 1 << random.below(8);
        }
        bytes.truncate(BLOCK - place);
        pair.block.tested_mut()[place..place + bytes.len()].copy_from_slice(&bytes);
        pair.block.expected_mut()[place..place + bytes.len()].copy_from_slice(&bytes);
        place += bytes.len();
        if place == BLOCK {
            return;
        }
    }
}

/// A few calls that go on from a state.
fn calls(pair: &mut Pair, random: &mut Random) {
    for _ in 0..4 {
        match random.below(8) {
            0 => pair.end(),
            1 | 2 => {
                let length = any_length(random, 7);
                let piece = random.bytes(length);
                pair.take(&piece, random);
            }
            3 => _ = pair.draw(),
            _ => _ = pair.next(),
        }
    }
}
