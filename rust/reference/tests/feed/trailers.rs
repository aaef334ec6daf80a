//! Trailers of each length, with each byte dirty in turn (§14.6): the moments of what they answer, in
//! pieces of many sizes and cut anywhere. With a record open the moment of reason 4 is the dirty
//! byte; that of reason 9 is the block's end, or the log's.

use crate::answers::skip;
use crate::fed::Fed;
use crate::moments::every_moment;
use crate::random::Random;
use reference::feed::Told;
use reference::log::{fragment, Next, BLOCK, FIRST, FULL, HEADER, LAST};

/// A log whose first block ends in a trailer.
struct Log {
    bytes: Vec<u8>,
    /// Where the open record starts at the trailer, if one is open.
    start: Option<usize>,
    trailer: usize,
    /// The place of its dirty byte.
    dirty: usize,
}

/// Every length and every byte of it: after a record, inside one, and inside an empty one.
fn logs() -> Vec<Log> {
    let mut all = Vec::new();
    for bytes in 1..HEADER {
        let trailer = BLOCK - bytes;
        let data = vec![7; trailer - HEADER];
        let heads = [
            (None, fragment(FULL, &data)),
            (Some(0), fragment(FIRST, &data)),
            (
                Some(trailer - HEADER),
                [fragment(FULL, &data[HEADER..]), fragment(FIRST, b"")].concat(),
            ),
        ];
        for dirty in trailer..BLOCK {
            for (start, head) in &heads {
                let mut log = head.clone();
                log.resize(BLOCK, 0);
                log[dirty] = 1 << (dirty % 8);
                log.extend(fragment(LAST, b"end"));
                all.push(Log {
                    bytes: log,
                    start: *start,
                    trailer,
                    dirty,
                });
            }
        }
    }
    assert_eq!(all.len(), 3 * 21);
    all
}

impl Log {
    fn interrupted(&self) -> Option<Next> {
        self.start.map(|start| skip(start, self.trailer, 4))
    }

    /// How many bytes must have come for each answer from the trailer on.
    fn moments(&self) -> Vec<(Next, usize)> {
        let interrupted = self.interrupted().map(|answer| (answer, self.dirty + 1));
        let end = self.bytes.len();
        let rest = [
            (skip(self.trailer, BLOCK, 9), BLOCK),
            (skip(BLOCK, end, 5), end),
        ];
        interrupted.into_iter().chain(rest).collect()
    }
}

/// What comes before the trailer has come and is drawn.
fn up_to_the_trailer<'a>(random: &mut Random, log: &Log, bytes: &'a [u8]) -> Fed<'a> {
    let mut fed = Fed::new(random, bytes, BLOCK);
    fed.offer(log.trailer);
    fed.draw_all();
    fed
}

#[test]
fn at_their_moments() {
    let random = &mut Random::new();
    println!("{random}");
    for log in logs() {
        for size in 1..=17 {
            let mut fed = up_to_the_trailer(random, &log, &log.bytes);
            let before = fed.answers.len();
            while fed.came() < log.bytes.len() {
                let came = fed.came();
                fed.offer(size);
                fed.draw_all();
                let certain = log.moments().into_iter();
                let certain = certain.filter(|(_, moment)| *moment <= fed.came());
                let due: Vec<Next> = certain.map(|(answer, _)| answer).collect();
                assert_eq!(fed.answers[before..], due, "{came}, {size}, {}", log.dirty);
                assert_eq!(fed.state.bad, 0, "a trailer is not remembered");
            }
            fed.end();
            fed.finish();
        }
    }
}

/// Pieces of other lengths from the log's start on.
#[test]
fn in_pieces_from_the_start() {
    let random = &mut Random::new();
    println!("{random}");
    for log in logs() {
        for size in [4_999, 32_761, 32_765, 32_767, 32_768, 40_000] {
            let mut fed = Fed::new(random, &log.bytes, BLOCK);
            while fed.came() < log.bytes.len() {
                fed.offer(size);
                fed.draw_all();
            }
            fed.end();
            fed.finish();
        }
    }
}

/// Cut at each place of the trailer: what is dirty is answered with the end, and the rest of it
/// that is zeros is passed.
#[test]
fn cut() {
    let random = &mut Random::new();
    println!("{random}");
    for log in logs() {
        for cut in log.trailer..=BLOCK {
            let bytes = &log.bytes[..cut];
            let mut fed = up_to_the_trailer(random, &log, bytes);
            let before = fed.answers.len();
            while fed.came() < cut {
                fed.offer(1);
                fed.draw_all();
            }
            // It waits, unless its block has come up to the end.
            if cut < BLOCK {
                let interrupted = log.interrupted().filter(|_| log.dirty < cut);
                assert!(fed.answers[before..].iter().eq(&interrupted));
                assert_eq!(fed.draw(), Told::NotYet);
                assert_eq!(fed.state.place as usize, log.trailer);
            }
            fed.end();
            fed.finish();
            let dirty = skip(log.trailer, cut, 9);
            let due = (log.dirty < cut).then_some(&dirty);
            let last = fed.answers[before..].last();
            assert_eq!(last, due, "cut to {cut}, dirty at {}", log.dirty);
        }
    }
}

/// The same moments by their definition.
#[test]
fn at_the_earliest() {
    let random = &mut Random::new();
    println!("{random}");
    for log in logs() {
        let bytes = &log.bytes[..BLOCK + 1];
        every_moment(random, bytes, BLOCK, log.trailer - 1);
    }
}

/// What is looked at again is what the block holds by then: a caller may have altered it (§11.3).
#[test]
fn looked_at_again() {
    let random = &mut Random::new();
    println!("{random}");
    let mut log = fragment(FULL, &[7; BLOCK - HEADER - 3]);
    log.extend([1, 0, 0]);
    let mut fed = Fed::new(random, &log, BLOCK);
    fed.offer(BLOCK - 1);
    fed.draw_all();
    assert_eq!((fed.state.place as usize, fed.state.bad), (BLOCK - 3, 0));
    fed.block[BLOCK - 3] = 0;
    let mut state = fed.state;
    reference::feed::end(&mut state);
    let told = reference::feed::next(&mut state, &fed.block, &mut fed.buffer);
    let clean = Next::End(reference::log::Tail::Clean);
    assert_eq!(told, Told::Answer(clean));
    assert_eq!(state.place as usize, BLOCK - 1);
}
