//! No byte is summed more than twice, however small the pieces are (§11.9). Each reading to the end
//! checks that as well; here are logs in which a bad fragment waits for long.

use crate::fed::Fed;
use crate::random::Random;
use reference::feed::Told;
use reference::log::{fragment, BLOCK, FIRST, FULL};

/// A bad fragment of some bytes after nothing or after a FIRST, and then the rest of its block.
fn waiting(random: &mut Random, first: bool) -> Vec<u8> {
    let mut log = if first {
        fragment(FIRST, b"open")
    } else {
        Vec::new()
    };
    let mut bad = fragment(FULL, &random.bytes(100));
    bad[0] ^= 1;
    log.extend(bad);
    let rest = BLOCK - log.len();
    log.extend(random.bytes(rest));
    log.extend(fragment(FULL, b"after"));
    log
}

#[test]
fn of_a_bad_fragment_that_waits() {
    let random = &mut Random::new();
    for first in [false, true] {
        let log = waiting(random, first);
        let place = if first { 11 } else { 0 };
        let mut fed = Fed::new(random, &log, 9);
        while fed.came() < log.len() {
            fed.offer(1);
            fed.draw_all();
            assert_eq!(fed.draw(), Told::NotYet);
        }
        // Once with the record open and once with nothing open: the type and the data.
        let twice = 1 + u8::from(first);
        assert_eq!(fed.sums[place + 5], 0);
        assert!(fed.sums[place + 6..place + 107]
            .iter()
            .all(|sums| *sums == twice));
        assert_eq!(fed.sums[place + 107..BLOCK].iter().max(), Some(&0));
        fed.end();
        fed.finish();
    }
}

/// What is remembered is answered, whatever the block holds by then.
#[test]
fn of_what_is_remembered() {
    let random = &mut Random::new();
    let log = waiting(random, false);
    let mut fed = Fed::new(random, &log, 9);
    fed.offer(107);
    assert_eq!(fed.draw(), Told::NotYet);
    assert_eq!(fed.state.bad, 3);
    fed.block.fill(0);
    let mut over = fed.state;
    reference::feed::end(&mut over);
    let skip = reference::log::Next::Skip {
        start: 0,
        end: 107,
        reason: 3,
    };
    let told = reference::feed::next(&mut over, &fed.block, &mut fed.buffer);
    assert_eq!(told, Told::Answer(skip));
}
