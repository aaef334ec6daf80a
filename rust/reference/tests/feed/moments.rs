//! *Earliest* (§11.12): at each moment once nothing more is certain, the answers so far are what
//! the readings of all logs have in common that begin with what has come.

use crate::dirty;
use crate::fed::Fed;
use crate::make;
use crate::random::Random;
use reference::feed::{continuations, earliest, reading};
use reference::log::{fragment, Next, Stored, BLOCK, FIRST, FULL, HEADER};

/// Feeds byte by byte from a place on, and holds each moment to the definition.
pub fn every_moment(random: &mut Random, log: &[u8], limit: usize, from: usize) {
    let mut fed = Fed::new(random, log, limit);
    while fed.came() < from.min(log.len()) {
        fed.offer(from - fed.came());
        fed.draw_all();
    }
    loop {
        fed.draw_all();
        fed.check_remembered();
        let due = earliest(fed.so_far(), limit);
        assert_eq!(fed.answers, due, "{random}, {:02x?}", fed.state);
        if fed.came() == log.len() {
            return;
        }
        fed.offer(1);
    }
}

#[test]
fn of_short_logs() {
    let random = &mut Random::new();
    println!("{random}");
    for _ in 0..60 {
        let length = 10 + random.below(40);
        let log = make::log(random, length, 9);
        let limit = make::pick(random, &[0, 5, 9, 40]);
        every_moment(random, &log, limit, 0);
    }
}

#[test]
fn of_logs_around_a_blocks_end() {
    let random = &mut Random::new();
    println!("{random}");
    for _ in 0..4 {
        let before = random.below(22);
        let length = BLOCK - 5 + random.below(16);
        let log = make::near_the_end(random, before, length);
        let limit = make::pick(random, &[30, BLOCK, 2 * BLOCK]);
        every_moment(random, &log, limit, BLOCK - before);
    }
}

/// The last bytes of a block, which may be cut. (tests/feed/trailers.rs has every dirty byte.)
#[test]
fn of_blocks_that_end_in_trailers() {
    let random = &mut Random::new();
    println!("{random}");
    for _ in 0..40 {
        let log = dirty::log(random, 1);
        every_moment(random, &log, BLOCK, log.len().saturating_sub(9));
    }
}

/// A block that is given up, with nothing open and with a record open: the moment is its last byte.
#[test]
fn of_a_block_given_up() {
    let random = &mut Random::new();
    let bad = [vec![0; HEADER], random.bytes(BLOCK - 3 * HEADER)].concat();
    for kind in [FULL, FIRST] {
        let log = [&fragment(kind, &[]), &bad[..], &fragment(FULL, &[])].concat();
        every_moment(random, &log[..40], 9, 0);
        every_moment(random, &log, 9, BLOCK - 9);
    }
}

/// The list for a log that nobody feeds, so that the definition is not only held to the reader: six
/// bytes of a hopeless header, and the seventh.
#[test]
fn by_definition() {
    let header = [0, 0, 0, 0, 0xFF, 0xFF, 1];
    let first = fragment(FIRST, &[7; 2]);
    let record = Next::Skip {
        start: 0,
        end: 9,
        reason: 4,
    };
    let begun = [&first[..], &header].concat();
    assert_eq!(earliest(&begun[..15], 9), []);
    assert_eq!(earliest(&begun, 9), [record]);
    assert_eq!(earliest(&header, 9), []);
    // A fragment of a byte too many waits for all its data.
    let long = fragment(FULL, &[7; 10]);
    let over = Next::Skip {
        start: 0,
        end: 17,
        reason: 7,
    };
    assert_eq!(earliest(&long[..16], 9), []);
    assert_eq!(earliest(&long, 9), [over]);
}

/// The same of trailers, after a record and inside one: zeros so far wait, what is dirty is certain
/// when its range is, and what it interrupts is certain at once (§14.6).
#[test]
fn of_trailers_by_definition() {
    let whole = Next::Record {
        start: 0,
        end: BLOCK - 3,
        length: BLOCK - 10,
        stored: Stored::Gathered,
        fragments: 1,
        last_header: 0,
    };
    let skip = |start, end, reason| Next::Skip { start, end, reason };
    let interrupted = skip(0, BLOCK - 3, 4);
    let dirty = skip(BLOCK - 3, BLOCK, 9);
    let rows: [(&[u8], &[Next], &[Next]); 7] = [
        (&[], &[whole], &[]),
        (&[0], &[whole], &[]),
        (&[0, 0], &[whole], &[]),
        (&[0, 0, 0], &[whole], &[]),
        (&[0, 1], &[whole], &[interrupted]),
        (&[1, 0], &[whole], &[interrupted]),
        (&[0, 1, 0], &[whole, dirty], &[interrupted, dirty]),
    ];
    for (trailer, after, inside) in rows {
        for (kind, due) in [(FULL, after), (FIRST, inside)] {
            let came = [&fragment(kind, &[7; BLOCK - 10]), trailer].concat();
            assert_eq!(earliest(&came, BLOCK), due, "{trailer:?}");
        }
    }
}

/// What may still come of a trailer that is zeros so far: zeros alone, and any byte dirty.
#[test]
fn some_logs_make_the_trailer_dirty() {
    for bytes in 1..HEADER {
        for come in 0..bytes {
            let before = fragment(FIRST, &vec![7; BLOCK - HEADER - bytes]);
            let came = [before, vec![0; come]].concat();
            let mut first_dirty = vec![false; bytes + 1];
            for more in continuations(&came) {
                let log = [&came[..], &more].concat();
                let trailer = log[BLOCK - bytes..].iter().take(bytes);
                if log.len() >= BLOCK {
                    let zeros = trailer.take_while(|byte| **byte == 0);
                    first_dirty[zeros.count()] = true;
                }
            }
            assert!(
                first_dirty[come..].iter().all(|met| *met),
                "{first_dirty:?}"
            );
        }
    }
}

/// The forger's logs: of a fragment whose header has come, one that is sound is among them.
#[test]
fn some_logs_make_the_fragment_sound() {
    let limit = 100;
    for come in [0, 1, 3, 4, 5, 6, 7, 8, 11] {
        let mut wrong = fragment(FULL, &[7; 12]);
        wrong[0] ^= 1;
        let begun = &wrong[..come];
        let sound = continuations(begun).iter().any(|more| {
            let log = [begun, more].concat();
            let answers = reading(&log, limit);
            matches!(answers[0], Next::Record { .. })
        });
        assert!(sound, "{come} bytes of a fragment");
    }
}
