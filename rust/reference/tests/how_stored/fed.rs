//! The fed reader's two numbers (§16.7): in its answers, and in the state between calls.

use crate::make::pick;
use crate::random::Random;
use crate::walk::{self, fragments};
use reference::feed::{begin, end, next, take, Block, State, Told};
use reference::log::{Next, Stored, BLOCK};

/// Feeds a log in pieces of any lengths. Every answer is the one of the whole log, but that a
/// record is gathered, and after each call the state has the numbers of what is open.
pub fn same_in_pieces(random: &mut Random, log: &[u8], limit: usize, whole: &[Next]) {
    let mut state = begin(limit as u64).expect("a limit");
    let mut block: Box<Block> = Box::new([0xA5; BLOCK]);
    let mut buffer = vec![0x5A; limit];
    let most = pick(random, &[9, 1_000, BLOCK, 3 * BLOCK]).max(log.len() / 200);
    let mut answers = Vec::new();
    while (state.came as usize) < log.len() {
        let rest = &log[state.came as usize..];
        let piece = &rest[..rest.len().min(1 + random.below(most))];
        let before = state;
        let taken = take(&mut state, &mut block, piece).expect("not refused");
        let came = before.came + taken as u64;
        assert_eq!(state, State { came, ..before }, "{random}");
        answers.extend(drawn(log, &mut state, &block, &mut buffer));
    }
    end(&mut state);
    answers.extend(drawn(log, &mut state, &block, &mut buffer));
    let due: Vec<Next> = whole.iter().copied().map(gathered).collect();
    assert_eq!(answers, due, "{random}");
}

/// What is certain, up to an end. Each answer is held to the walk.
fn drawn(log: &[u8], state: &mut State, block: &Block, buffer: &mut [u8]) -> Vec<Next> {
    let mut answers = Vec::new();
    loop {
        let told = next(state, block, buffer);
        open_as_walked(log, state);
        match told {
            Told::Answer(answer) => answers.push(answer),
            Told::NotYet => return answers,
            Told::Refused(number) => panic!("refused with {number}"),
        }
        match answers.last() {
            Some(Next::End(_)) => return answers,
            Some(record @ Next::Record { .. }) => {
                walk::hold(log, record);
                assert_eq!(state.opened, 0);
            }
            _ => assert_eq!(state.opened, 0),
        }
    }
}

/// The open record's fragments lie between its start and the place, maybe with trailers after them.
fn open_as_walked(log: &[u8], state: &State) {
    let State {
        place,
        opened,
        start,
        ..
    } = *state;
    let range = start as usize..place as usize;
    let open = match opened {
        0 => Vec::new(),
        _ => fragments(log, range),
    };
    let last = open.last().map_or(0, |last| last.place);
    let due = (open.len() as u64, last as u64);
    assert_eq!((state.fragments, state.last_header), due, "{state:?}");
}

fn gathered(mut answer: Next) -> Next {
    if let Next::Record { stored, .. } = &mut answer {
        *stored = Stored::Gathered;
    }
    answer
}
