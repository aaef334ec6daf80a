//! *Pieces refused* (§11.11): each number exactly where its condition holds, the lowest of several,
//! and nothing changed.

use crate::random::Random;
use reference::feed::{begin, end, fits, next, take, Block, State, Told};
use reference::log::{Next, Tail, BLOCK, LONGEST_LOG, LONGEST_RECORD};

#[test]
fn of_begin() {
    for limit in [0, 1, 24_576, LONGEST_RECORD as u64] {
        let begun = State {
            limit,
            ..State::default()
        };
        assert_eq!(begin(limit), Ok(begun));
        assert!(fits(&begun));
    }
    for limit in [LONGEST_RECORD as u64 + 1, u64::MAX - 7, u64::MAX] {
        assert_eq!(begin(limit), Err(5));
    }
}

/// A state that has come so far with nothing open, at the end of what has come.
fn at(came: u64) -> State {
    State {
        limit: 100,
        place: came,
        came,
        ..State::default()
    }
}

/// Two misfits: one of the numbers of how a record is stored, though none is open.
fn stored_with_nothing_open(state: State) -> [State; 2] {
    let (fragments, last_header) = (1, 1);
    [
        State { fragments, ..state },
        State {
            last_header,
            ..state
        },
    ]
}

/// Takes, and sees that a refusal changes nothing.
fn taken(state: &State, piece: &[u8]) -> Result<usize, u8> {
    let random = &mut Random::new();
    let before: Box<Block> = random.bytes(BLOCK).try_into().expect("a block");
    let (mut after, mut block) = (*state, before.clone());
    let answer = take(&mut after, &mut block, piece);
    if answer.is_err() {
        assert_eq!(after, *state);
        assert!(block == before);
    }
    answer
}

#[test]
fn of_take() {
    let most = LONGEST_LOG as u64;
    let over = |state| State { over: 1, ..state };
    let misfit = |state| State { bad: 4, ..state };
    let near = at(most - 10);
    let ten = [7; 10];
    let eleven = [7; 11];
    let [fragments, last_header] = stored_with_nothing_open(at(0));
    let rows: [(State, &[u8], Result<usize, u8>); 20] = [
        (near, &ten, Ok(10)),
        (near, &eleven, Err(1)),
        (at(most), &[], Ok(0)),
        (at(most), &[7], Err(1)),
        (over(near), &ten, Err(20)),
        (over(near), &eleven, Err(1)),
        (misfit(near), &ten, Err(2)),
        (misfit(near), &eleven, Err(1)),
        (over(misfit(near)), &ten, Err(2)),
        (over(misfit(near)), &eleven, Err(1)),
        (over(at(0)), &[], Err(20)),
        (over(at(most)), &[], Err(20)),
        (misfit(at(0)), &[], Err(2)),
        (State { over: 2, ..at(0) }, &[], Err(2)),
        (fragments, &[], Err(2)),
        (last_header, &[], Err(2)),
        (at(most + 1), &[], Err(1)),
        (at(u64::MAX), &[], Err(1)),
        (at(u64::MAX), &ten, Err(1)),
        (over(misfit(at(u64::MAX))), &ten, Err(1)),
    ];
    for (state, piece, due) in rows {
        assert_eq!(taken(&state, piece), due, "{state:?}, {}", piece.len());
    }
}

/// The whole piece counts, though a block's bytes of it at most would be taken.
#[test]
fn of_take_for_all_of_the_piece() {
    // Of zeros, since those take no memory until they are touched.
    let piece = vec![0; LONGEST_LOG + 1];
    assert_eq!(taken(&at(0), &piece), Err(1));
    assert_eq!(taken(&at(0), &piece[1..]), Ok(BLOCK));
    assert_eq!(taken(&at(1), &piece[1..]), Err(1));
    assert_eq!(taken(&at(1), &piece[2..]), Ok(BLOCK - 1));
    // A block that is full takes none, and that is no refusal.
    let full = State {
        place: 0,
        ..at(BLOCK as u64)
    };
    assert_eq!(taken(&full, &piece[..9]), Ok(0));
    assert_eq!(taken(&full, &piece[BLOCK..]), Err(1));
}

#[test]
fn of_next() {
    let block = [0; BLOCK];
    let misfit = State {
        length: 1,
        ..at(50)
    };
    let [fragments, last_header] = stored_with_nothing_open(at(50));
    let at_limit = |limit| State { limit, ..at(50) };
    let (highest, high) = (at_limit(4_194_304), at_limit(4_194_305));
    let rows = [
        (at(50), 100, Told::NotYet),
        (at(50), 101, Told::NotYet),
        (at(50), 99, Told::Refused(6)),
        (at(50), 0, Told::Refused(6)),
        (misfit, 100, Told::Refused(2)),
        (misfit, 99, Told::Refused(2)),
        (fragments, 100, Told::Refused(2)),
        (last_header, 100, Told::Refused(2)),
        (highest, 4_194_304, Told::NotYet),
        (highest, 4_194_303, Told::Refused(6)),
        (high, 4_194_305, Told::Refused(2)),
        (high, 0, Told::Refused(2)),
        (at(1_073_741_824), 100, Told::NotYet),
        (at(1_073_741_825), 100, Told::Refused(2)),
        (at(u64::MAX), 0, Told::Refused(2)),
    ];
    for (state, length, due) in rows {
        let (mut after, mut buffer) = (state, vec![0x5A; length]);
        assert_eq!(next(&mut after, &block, &mut buffer), due, "{state:?}");
        assert_eq!(after, state);
        assert!(buffer.iter().all(|byte| *byte == 0x5A));
    }
}

/// The end is announced once and for all; a piece after it is refused, one of no bytes too.
#[test]
fn after_the_end() {
    let mut state = begin(100).expect("a limit");
    let mut block = [0; BLOCK];
    let mut buffer = [0x5A; 100];
    assert_eq!(take(&mut state, &mut block, &[7; 3]), Ok(3));
    end(&mut state);
    let over = state;
    assert_eq!((over.over, over.came), (1, 3));
    end(&mut state);
    assert_eq!(state, over);
    for piece in [&[][..], &[1], &[1; 40_000]] {
        assert_eq!(take(&mut state, &mut block, piece), Err(20));
        for _ in 0..2 {
            let torn = Told::Answer(Next::End(Tail::Torn(0)));
            assert_eq!(next(&mut state, &block, &mut buffer), torn);
            assert_eq!(state, over);
        }
    }
    assert_eq!(buffer, [0x5A; 100]);
}

/// A state that does not fit together is left alone by the end.
#[test]
fn of_an_end_that_does_nothing() {
    let [fragments, last_header] = stored_with_nothing_open(at(9));
    for misfit in [
        fragments,
        last_header,
        State { bad: 4, ..at(9) },
        State { start: 1, ..at(9) },
        // Open, and of no fragment.
        State { opened: 1, ..at(9) },
        State { over: 2, ..at(9) },
        State { place: 10, ..at(9) },
        State {
            limit: 4_194_305,
            ..at(9)
        },
        at(1_073_741_825),
        at(u64::MAX),
    ] {
        let mut state = misfit;
        end(&mut state);
        assert_eq!(state, misfit);
    }
}
