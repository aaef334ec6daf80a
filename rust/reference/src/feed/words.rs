//! State and answers as ten words, as C has them (§10.1, §11.14).

use super::{begin, end, next, take, Block, State, Told};
use crate::log::{Next, Stored, Tail};
use std::array;

/// The state, if it is begun, and the answer.
pub fn begin_words(limit: u64) -> (Option<[u64; 10]>, [u64; 10]) {
    match begin(limit) {
        Ok(state) => (Some(put(&state)), words(&[0])),
        Err(number) => (None, words(&[1, u64::from(number), 0])),
    }
}

pub fn take_words(state: &mut [u64; 10], block: &mut Block, piece: &[u8]) -> [u64; 10] {
    let mut numbers = got(state);
    let answer = take(&mut numbers, block, piece);
    *state = put(&numbers);
    match answer {
        Ok(taken) => words(&[0, taken as u64]),
        Err(number) => words(&[1, u64::from(number), 0]),
    }
}

/// End answers nothing.
pub fn end_words(state: &mut [u64; 10]) {
    let mut numbers = got(state);
    end(&mut numbers);
    *state = put(&numbers);
}

pub fn next_words(state: &mut [u64; 10], block: &Block, buffer: &mut [u8]) -> [u64; 10] {
    let mut numbers = got(state);
    let told = next(&mut numbers, block, buffer);
    *state = put(&numbers);
    words_of_told(told, numbers.came)
}

/// What is told, once so many bytes have come, as ten words.
pub fn words_of_told(told: Told, came: u64) -> [u64; 10] {
    match told {
        Told::Answer(answer) => of_answer(answer, came as usize).map(|word| word as u64),
        Told::Refused(number) => words(&[3, u64::from(number), 0]),
        Told::NotYet => words(&[4]),
    }
}

/// The rows "next" of §10.1. A clean end goes on from what has come.
fn of_answer(answer: Next, came: usize) -> [usize; 10] {
    match answer {
        Next::Record {
            start,
            end,
            length,
            stored,
            fragments,
            last_header,
        } => {
            assert_eq!(stored, Stored::Gathered, "§11.10");
            [0, start, end, length, 1, 0, end, fragments, last_header, 0]
        }
        Next::Skip { start, end, reason } => [1, start, end, reason.into(), 0, 0, end, 0, 0, 0],
        Next::End(Tail::Clean) => [2, 0, 0, 0, 0, 0, came, 0, 0, 0],
        Next::End(Tail::Torn(start)) => [2, 1, start, 0, 0, 0, start, 0, 0, 0],
        Next::Refused { .. } => unreachable!("the fed reader refuses by `Told::Refused`"),
    }
}

/// Words without a meaning are 0.
fn words(named: &[u64]) -> [u64; 10] {
    array::from_fn(|i| named.get(i).copied().unwrap_or(0))
}

/// The ten numbers, in the order of §11.2.
fn got(words: &[u64; 10]) -> State {
    let [limit, place, came, over, opened, start, length, bad, fragments, last_header] = *words;
    State {
        limit,
        place,
        came,
        over,
        opened,
        start,
        length,
        bad,
        fragments,
        last_header,
    }
}

/// The same, the other way round.
fn put(state: &State) -> [u64; 10] {
    [
        state.limit,
        state.place,
        state.came,
        state.over,
        state.opened,
        state.start,
        state.length,
        state.bad,
        state.fragments,
        state.last_header,
    ]
}
