//! States that a caller makes up (§11.3): which fit together, and what is answered for those.

use crate::accepted::accepted;
use crate::make;
use crate::random::Random;
use reference::feed::{end, fits, next, take, Block, State, Told};
use reference::log::{self, fragment, Next, Stored, Tail, BLOCK, FIRST, HEADER, LONGEST_LOG};

const BLOCK64: u64 = BLOCK as u64;
/// The figure of §11.3, as the page writes it: a wrong one in the code is noticed.
const LOG64: u64 = 1_073_741_824;

/// Sets numbers of a state.
type Change = fn(&mut State);

/// Whether a state fits together once it is changed, each row one change.
fn judged(state: State, rows: &[(Change, bool)]) {
    for (i, (change, due)) in rows.iter().enumerate() {
        let mut state = state;
        change(&mut state);
        assert_eq!(fits(&state), *due, "row {i}, {state:?}");
    }
}

/// A state with nothing open.
const NONE: State = State {
    limit: 100,
    place: 50,
    came: 60,
    over: 0,
    opened: 0,
    start: 0,
    length: 0,
    bad: 0,
    fragments: 0,
    last_header: 0,
};

/// The list of §11.3, each line at its edge and one past it.
#[test]
fn that_fit_with_nothing_open() {
    assert!(fits(&State::default()));
    judged(
        NONE,
        &[
            (|_| {}, true),
            (|s| s.limit = 4_194_304, true),
            (|s| s.limit = 4_194_305, false),
            (|s| s.limit = u64::MAX, false),
            (|s| (s.place, s.came) = (LOG64, LOG64), true),
            (|s| (s.place, s.came) = (LOG64, LOG64 + 1), false),
            (|s| (s.place, s.came) = (u64::MAX, u64::MAX), false),
            (|s| s.place = 60, true),
            (|s| s.place = 61, false),
            (|s| s.place = u64::MAX, false),
            (|s| s.came = BLOCK64, true),
            (|s| s.came = BLOCK64 + 1, false),
            (|s| (s.place, s.came) = (BLOCK64 - 1, BLOCK64), true),
            (|s| (s.place, s.came) = (BLOCK64 - 1, BLOCK64 + 1), false),
            (|s| (s.place, s.came) = (BLOCK64, 2 * BLOCK64), true),
            (|s| (s.place, s.came) = (BLOCK64, 2 * BLOCK64 + 1), false),
            (|s| s.over = 1, true),
            (|s| s.over = 2, false),
            (|s| s.over = u64::MAX, false),
            (|s| s.start = 1, false),
            (|s| s.length = 1, false),
            (|s| s.fragments = 1, false),
            (|s| s.fragments = u64::MAX, false),
            (|s| s.last_header = 1, false),
            (|s| s.last_header = u64::MAX, false),
            // As if a record were open.
            (|s| (s.fragments, s.last_header) = (1, 3), false),
        ],
    );
}

/// A state with a record open, of which all that comes before the place is one fragment.
const OPEN: State = State {
    opened: 1,
    start: 3,
    length: 40,
    fragments: 1,
    last_header: 3,
    ..NONE
};

#[test]
fn that_fit_with_a_record_open() {
    judged(
        OPEN,
        &[
            (|_| {}, true),
            (|s| s.opened = 2, false),
            (|s| s.opened = u64::MAX, false),
            (|s| s.limit = 40, true),
            (|s| s.limit = 39, false),
            (|s| s.start = 0, true),
            (|s| (s.start, s.last_header) = (4, 4), false),
            (|s| (s.start, s.last_header) = (u64::MAX, 3), false),
            (|s| s.start = u64::MAX - 46, false),
            (|s| s.length = 39, true),
            (|s| s.length = 41, false),
            (|s| (s.start, s.length, s.last_header) = (43, 0, 43), true),
            (|s| (s.start, s.length, s.last_header) = (44, 0, 44), false),
            (|s| s.length = u64::MAX, false),
            (|s| s.bad = 1, false),
        ],
    );
}

/// It has a fragment at least, and there is room for a header of each of them.
#[test]
fn that_fit_by_their_fragments() {
    judged(
        OPEN,
        &[
            (|s| s.fragments = 0, false),
            (|s| (s.fragments, s.length) = (0, 0), false),
            (|s| s.fragments = 2, false),
            (|s| (s.fragments, s.length) = (2, 33), true),
            (|s| (s.fragments, s.length) = (2, 34), false),
            (|s| (s.fragments, s.length) = (6, 5), true),
            (|s| (s.fragments, s.length) = (6, 6), false),
            (|s| (s.fragments, s.length) = (7, 0), false),
            (|s| (s.fragments, s.length, s.start) = (7, 0, 1), true),
            (|s| (s.fragments, s.length, s.start) = (7, 1, 1), false),
            (|s| (s.fragments, s.length, s.start) = (7, 1, 0), true),
            // Seven times this is 5 if 64 bits are kept, and then it would fit.
            (|s| s.fragments = u64::MAX / 7 + 1, false),
            (|s| s.fragments = u64::MAX / 7, false),
            (|s| s.fragments = u64::MAX, false),
        ],
    );
}

/// The last header is at the start or after it, and there is room for it before the place. Nothing
/// else is asked of it: with one fragment, it may be elsewhere than at the start.
#[test]
fn that_fit_by_their_last_header() {
    judged(
        OPEN,
        &[
            (|s| s.last_header = 0, false),
            (|s| s.last_header = 2, false),
            (|s| s.last_header = 4, true),
            (|s| s.last_header = 43, true),
            (|s| s.last_header = 44, false),
            (|s| s.last_header = 50, false),
            // With 7 more it is 0 if 64 bits are kept.
            (|s| s.last_header = u64::MAX - 6, false),
            (|s| s.last_header = u64::MAX, false),
            (|s| (s.length, s.start, s.last_header) = (0, 43, 42), false),
            (|s| (s.length, s.start, s.last_header) = (0, 43, 43), true),
            (|s| (s.length, s.start, s.last_header) = (0, 43, 44), false),
            (|s| (s.start, s.last_header) = (0, 0), true),
            // In an earlier block than the place, and the place right after it.
            (
                |s| (s.place, s.came, s.last_header) = (2 * BLOCK64, 2 * BLOCK64, 3),
                true,
            ),
            (
                |s| (s.place, s.came, s.last_header) = (2 * BLOCK64, 2 * BLOCK64, 2 * BLOCK64 - 7),
                true,
            ),
            (
                |s| (s.place, s.came, s.last_header) = (2 * BLOCK64, 2 * BLOCK64, 2 * BLOCK64 - 6),
                false,
            ),
        ],
    );
}

#[test]
fn that_fit_with_a_bad_fragment() {
    let bad = State { bad: 3, ..NONE };
    judged(
        bad,
        &[
            (|_| {}, true),
            (|s| s.bad = 1, true),
            (|s| s.bad = 4, false),
            // A dirty trailer is never remembered (§11.9).
            (|s| s.bad = 9, false),
            (|s| s.bad = u64::MAX, false),
            (|s| s.place = 53, true),
            (|s| s.place = 54, false),
            (|s| (s.place, s.bad) = (54, 0), true),
        ],
    );
}

/// A number: high, an edge, or below `most`.
fn number(random: &mut Random, most: usize) -> u64 {
    let edges = [0, 1, 2, 3, 7, 8, 40, BLOCK64 - 1, BLOCK64, LOG64];
    let high = [
        BLOCK64 + 1,
        4_194_305,
        LOG64 + 1,
        1 << 63,
        u64::MAX - 7,
        u64::MAX,
    ];
    match random.below(20) {
        0 => make::pick(random, &high),
        1..=4 => make::pick(random, &edges),
        _ => random.below(most) as u64,
    }
}

/// Any numbers as a state. The low ones are as they go with nothing open or with a record open.
fn any_state(random: &mut Random) -> State {
    let mut number = |most| number(random, most);
    let opened = number(2);
    let low = |if_open| if opened == 1 { if_open } else { 1 };
    let place = number(low(40));
    State {
        limit: number(100),
        place,
        came: place.wrapping_add(number(20)),
        over: number(2),
        opened,
        start: number(low(5)),
        length: number(low(9)),
        bad: number(1),
        fragments: number(low(4)),
        last_header: number(low(30)),
    }
}

/// Any numbers at all: calls are refused if and only if they do not fit together, and then change
/// nothing; else a state comes of them that fits.
#[test]
fn of_any_numbers() {
    let random = &mut Random::new();
    println!("{random}");
    let mut block: Box<Block> = random.bytes(BLOCK).try_into().expect("a block");
    // With nothing open, and with a record open.
    let mut fitting = [0; 2];
    for _ in 0..100_000 {
        let before = any_state(random);
        if any_calls(&before, &mut block) {
            fitting[before.opened as usize] += 1;
        }
    }
    println!("{fitting:?} of them fit");
    let [none, open] = fitting;
    assert!(none > 1_000 && open > 1_000, "{fitting:?} of them fit");
}

/// The list of §11.3 by differences, of which none may be below 0.
fn fits_by_differences(state: &State) -> bool {
    let wide = i128::from;
    let (place, came, bad) = (wide(state.place), wide(state.came), wide(state.bad));
    let (start, length) = (wide(state.start), wide(state.length));
    let (fragments, last_header) = (wide(state.fragments), wide(state.last_header));
    let block_end = place - place % wide(BLOCK64) + wide(BLOCK64);
    let always = [
        4_194_304 - wide(state.limit),
        1_073_741_824 - came,
        came - place,
        block_end - came,
        1 - wide(state.over),
        1 - wide(state.opened),
        3 - bad,
        if bad > 0 { came - place - 7 } else { 0 },
    ];
    let open = [
        wide(state.limit) - length,
        fragments - 1,
        place - start - 7 * fragments - length,
        last_header - start,
        place - last_header - 7,
        -bad,
    ];
    let none = [-start, -length, -fragments, -last_header];
    let record = if state.opened == 0 { &none[..] } else { &open };
    always.iter().chain(record).all(|left| *left >= 0)
}

/// Each call once; whether the numbers fit.
fn any_calls(before: &State, block: &mut Block) -> bool {
    let [mut fed, mut ended, mut drawn] = [*before; 3];
    let fitting = fits(before);
    assert_eq!(fitting, fits_by_differences(before), "{before:?}");
    let taken = take(&mut fed, block, &[7]);
    end(&mut ended);
    let told = next(&mut drawn, block, &mut [0; 100]);
    if fitting {
        assert!(fits(&fed) && fits(&ended) && fits(&drawn), "{before:?}");
        assert_eq!(ended.over, 1);
        assert_eq!(told == Told::Refused(6), before.limit > 100, "{before:?}");
        return true;
    }
    let too_long = before.came >= LOG64;
    assert_eq!(taken, Err(if too_long { 1 } else { 2 }), "{before:?}");
    assert_eq!(told, Told::Refused(2), "{before:?}");
    assert_eq!([fed, ended, drawn], [*before; 3]);
    false
}

/// A state that fits together, and the bytes of its block.
struct Made {
    state: State,
    block: Box<Block>,
    buffer: Vec<u8>,
}

/// Fragments from the place on, of which some have come; sometimes all of the block.
fn made(random: &mut Random) -> Made {
    let o = match random.below(6) {
        // In a trailer.
        0 => BLOCK - 1 - random.below(HEADER - 1),
        _ => make::pick(random, &[0, 100, BLOCK / 2, BLOCK - 30]) + random.below(30),
    };
    let mut bytes = random.bytes(o);
    make::add(random, &mut bytes, (o + 60).min(BLOCK), 9);
    bytes.extend(random.bytes(BLOCK - bytes.len()));
    let came = match random.below(4) {
        0 => BLOCK,
        _ => (o + random.below(60)).min(BLOCK),
    };
    let base = random.below(LONGEST_LOG / BLOCK) * BLOCK;
    let mut state = State {
        limit: random.below(70) as u64,
        place: (base + o) as u64,
        came: (base + came) as u64,
        over: random.below(2) as u64,
        ..State::default()
    };
    // Often with no bytes so far: an empty start, if a FULL or FIRST is next.
    let length = random.below(2) * random.below(state.limit as usize + 1);
    if o >= HEADER + length && random.below(2) == 0 {
        state.opened = 1;
        state.length = length as u64;
        let start = random.below(base + o - HEADER - length + 1);
        state.start = start as u64;
        how_stored(random, &mut state);
    }
    Made {
        state,
        block: bytes.try_into().expect("a block"),
        buffer: random.bytes(80),
    }
}

/// Gives an open record any numbers that fit of how it was stored: few fragments or many, and the
/// last header anywhere.
fn how_stored(random: &mut Random, state: &mut State) {
    let most = (state.place - state.start - state.length) / HEADER as u64;
    let any = 1 + random.below(most as usize) as u64;
    state.fragments = make::pick(random, &[1, any, most]);
    let room = state.place - HEADER as u64 - state.start;
    let any = random.below(room as usize + 1) as u64;
    state.last_header = state.start + make::pick(random, &[0, any, room]);
}

/// The block as far as it has come, as a log of its own. What is open is in it as a FIRST that ends
/// at the place; where it starts there is given too.
fn as_a_log(made: &Made) -> (Vec<u8>, usize) {
    let State { place, came, .. } = made.state;
    let o = (place % BLOCK64) as usize;
    let mut log = made.block[..o + (came - place) as usize].to_vec();
    if made.state.opened == 0 {
        return (log, o);
    }
    let first = fragment(FIRST, &made.buffer[..made.state.length as usize]);
    let start = o - first.len();
    log[start..o].copy_from_slice(&first);
    (log, start)
}

/// The first answer of a log from a place on, in the form of §11.10.
fn first_answer(log: &[u8], place: usize, limit: u64) -> Next {
    let mut buffer = vec![0; limit as usize];
    let mut answer = log::next(log, place, limit as usize, &mut buffer);
    if let Next::Record { stored, .. } = &mut answer {
        *stored = Stored::Gathered;
    }
    answer
}

/// The answer if it is certain: if the end is announced, or if a byte more does not change it.
fn certain(log: &[u8], place: usize, state: &State) -> Option<Next> {
    let answer = first_answer(log, place, state.limit);
    let same = |byte: &u8| {
        let longer = [log, &[*byte]].concat();
        first_answer(&longer, place, state.limit) == answer
    };
    let settled = !matches!(answer, Next::End(_)) && [0, 1, 0xFF].iter().all(same);
    (state.over == 1 || settled).then_some(answer)
}

/// An answer of the block's own log, at the places that the state speaks of.
fn moved(answer: Next, from: usize, state: &State) -> Next {
    let base = (state.place - state.place % BLOCK64) as usize;
    let shift = |place: usize| match state.opened {
        1 if place == from => state.start as usize,
        _ => base + place,
    };
    match answer {
        Next::Record {
            start,
            end,
            length,
            stored,
            fragments,
            last_header,
        } => Next::Record {
            start: shift(start),
            end: base + end,
            length,
            stored,
            // What is open stands as one fragment in the block's own log, and has as many as the
            // state says (§16.7). The last one is read by the call.
            fragments: match state.opened {
                1 if start == from => state.fragments as usize + fragments - 1,
                _ => fragments,
            },
            last_header: base + last_header,
        },
        Next::Skip { start, end, reason } => Next::Skip {
            start: shift(start),
            end: base + end,
            reason,
        },
        Next::End(Tail::Torn(start)) => Next::End(Tail::Torn(shift(start))),
        other => other,
    }
}

#[test]
fn that_fit_are_answered() {
    let random = &mut Random::new();
    println!("{random}");
    let mut kinds = [0; 7];
    for _ in 0..6_000 {
        let mut made = made(random);
        let before = made.state;
        assert!(fits(&before), "{random}, {before:?}");
        let (log, from) = as_a_log(&made);
        let due = certain(&log, from, &before);
        let (state, buffer) = after(&made, &log, from, due);
        let told = next(&mut made.state, &made.block, &mut made.buffer);
        let due = due.map_or(Told::NotYet, |answer| {
            Told::Answer(moved(answer, from, &before))
        });
        assert_eq!(told, due, "{random}, {before:?}");
        assert_eq!(made.state, state, "{random}, {before:?}, {told:?}");
        assert!(made.buffer == buffer, "{random}, {before:?}, {told:?}");
        kinds[match told {
            Told::Answer(Next::Record { .. }) => 0,
            Told::Answer(Next::Skip { reason: 4, .. }) => 1,
            Told::Answer(Next::Skip { reason: 8, .. }) => 2,
            Told::Answer(Next::Skip { reason: 9, .. }) => 3,
            Told::Answer(Next::Skip { .. }) => 4,
            Told::Answer(_) => 5,
            _ => 6,
        }] += 1;
    }
    assert!(kinds.iter().all(|kind| *kind > 100), "{kinds:?}");
}

/// The same state with nothing open.
fn closed(state: State) -> State {
    State {
        opened: 0,
        start: 0,
        length: 0,
        fragments: 0,
        last_header: 0,
        ..state
    }
}

/// State and buffer after the call, by the block's own log and the answer that is due.
fn after(made: &Made, log: &[u8], from: usize, due: Option<Next>) -> (State, Vec<u8>) {
    let answer = first_answer(log, from, made.state.limit);
    let mut buffer = made.buffer.clone();
    let mut state = made.state;
    let base = state.place - state.place % BLOCK64;
    let mut place = (state.place - base) as usize;
    for fragment in accepted(log, &[answer]) {
        let part = fragment.front..fragment.front + fragment.length();
        buffer[part].copy_from_slice(fragment.data(log));
        if fragment.span.start >= place {
            if state.opened == 0 {
                state.start = base + fragment.span.start as u64;
            }
            state.opened = 1;
            state.length += fragment.length() as u64;
            state.fragments += 1;
            state.last_header = base + fragment.span.start as u64;
            place = fragment.span.end;
        }
    }
    // A trailer is passed if all of it has come, or all that there is.
    if BLOCK - place < HEADER && (log.len() == BLOCK || state.over == 1) {
        place = log.len();
    }
    state.place = base + place as u64;
    match (due, answer) {
        (Some(Next::Record { end, .. } | Next::Skip { end, .. }), _) => {
            state = State {
                place: base + end as u64,
                ..closed(state)
            };
        }
        // A dirty trailer waits as well, but is not remembered (§11.9).
        (None, Next::Skip { reason: 9, .. }) => {}
        (None, Next::Skip { reason, .. }) => state.bad = u64::from(reason),
        _ => {}
    }
    (state, buffer)
}

/// What is remembered is answered at the end of its range, whatever the block holds.
#[test]
fn that_remember_a_bad_fragment() {
    let random = &mut Random::new();
    println!("{random}");
    for _ in 0..600 {
        let mut made = made(random);
        let State { place, came, .. } = made.state;
        if came - place < 7 {
            continue;
        }
        let reason = 1 + random.below(3) as u8;
        made.state = State {
            bad: u64::from(reason),
            ..closed(made.state)
        };
        let (before, buffer) = (made.state, made.buffer.clone());
        let told = next(&mut made.state, &made.block, &mut made.buffer);
        assert!(made.buffer == buffer);
        if before.over == 0 && came % BLOCK64 != 0 {
            assert_eq!((told, made.state), (Told::NotYet, before));
            continue;
        }
        let (start, end) = (place as usize, came as usize);
        let due = Next::Skip { start, end, reason };
        assert_eq!(told, Told::Answer(due), "{random}, {before:?}");
        let on = State {
            place: came,
            bad: 0,
            ..before
        };
        assert_eq!(made.state, on);
    }
}
