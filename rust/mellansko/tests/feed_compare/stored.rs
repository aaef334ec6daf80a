//! How an open record was stored so far, in states that are made up: both numbers at the edges of
//! each condition and on both sides of it (§11.3), and so high that a sum with them would wrap
//! around. A reader that leaves one of the conditions out, or has it wrong by one, takes a state that
//! does not fit, or refuses one that does.

use crate::made::Made;
use crate::make::pick;
use crate::pair::Pair;
use crate::random::Random;
use crate::words::Words;
use reference::log::{fragment, BLOCK, FIRST, FULL, HEADER, LAST, MIDDLE};

/// The header's length, as a number of a state.
const SEVEN: u64 = HEADER as u64;

/// The limit of each.
const LIMIT: usize = 30;

pub fn all(random: &mut Random) -> Made {
    let mut made = Made::default();
    for place in [0, 6, 7, 8, 13, 14, 15, 40, BLOCK, BLOCK + 21, 3 * BLOCK - 3] {
        let mut pair = Pair::new(LIMIT, random);
        for opened in [0, 1] {
            for (start, length) in ranges(place as u64) {
                for [fragments, last] in numbers(place as u64, start, length) {
                    let state = [opened, start, length, 0, fragments, last];
                    go_on(&mut pair, place, state, random);
                }
            }
        }
        made += pair.made;
    }
    made
}

/// Where a record starts, and how many bytes it has: with as much room for headers as can be, with
/// room for one and for two and for a byte less, and with none.
fn ranges(place: u64) -> Vec<(u64, u64)> {
    let mut ranges = vec![(0, 0), (0, 3), (place, 0)];
    for room in [SEVEN - 1, SEVEN, 2 * SEVEN - 1, 2 * SEVEN] {
        for length in [0, 1] {
            if let Some(start) = place.checked_sub(room + length) {
                ranges.push((start, length));
            }
        }
    }
    ranges
}

/// Fragments and last headers, each around all that it is compared with.
fn numbers(place: u64, start: u64, length: u64) -> Vec<[u64; 2]> {
    let most = place.saturating_sub(start + length) / SEVEN;
    let wrapping = [u64::MAX / SEVEN, u64::MAX / SEVEN + 1, 1 << 61, 1 << 63];
    let fragments = around(most).chain([0, 1, 2]).chain(wrapping);
    let last = around(start).chain(around(place.wrapping_sub(SEVEN)));
    let last: Vec<u64> = last.chain([0, place, u64::MAX, 1 << 63]).collect();
    let pairs = fragments.flat_map(|fragments| last.iter().map(move |&last| [fragments, last]));
    pairs.collect()
}

/// A number and its neighbours.
fn around(number: u64) -> impl Iterator<Item = u64> {
    [number.wrapping_sub(1), number, number.wrapping_add(1)].into_iter()
}

/// Each call once, on a state with these numbers from opened on, and with a fragment or two to go on
/// with.
fn go_on(pair: &mut Pair, place: usize, rest: [u64; 6], random: &mut Random) {
    let kinds = [MIDDLE, MIDDLE, LAST, LAST, FIRST, FULL, 7];
    let mut piece = Vec::new();
    for _ in 0..1 + random.below(2) {
        let length = random.below(3);
        piece.extend(fragment(pick(random, &kinds), &random.bytes(length)));
    }
    let [limit, came] = [LIMIT, place].map(|number| number as u64);
    let [opened, start, length, bad, fragments, last] = rest;
    let state = [
        limit, came, came, 0, opened, start, length, bad, fragments, last,
    ];
    pair.state = Words::new(state);
    pair.take(&piece, random);
    pair.next();
    pair.next();
    pair.end();
    pair.draw();
}
