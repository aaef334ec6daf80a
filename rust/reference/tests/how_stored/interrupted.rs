//! What was open before and broke off, or was over the limit, takes its fragments with it (§16.2):
//! whatever it was and whatever comes between, the record that follows has its own numbers.

use crate::fed::same_in_pieces;
use crate::random::Random;
use crate::reading::{reading, records};
use crate::walk::{fragments, hold};
use reference::feed::{begin, end, next, take, Told};
use reference::log::{fragment, Next, Tail, BLOCK, FIRST, FULL, HEADER, LAST, MIDDLE};

const LIMIT: usize = 100;

/// Beginnings of records: one to four fragments, with data and without.
fn begun() -> Vec<Vec<u8>> {
    let data: [&[u8]; 2] = [b"", b"ab"];
    let mut all = Vec::new();
    for middles in 0..4 {
        for (first, more) in [(0, 0), (0, 1), (1, 0), (1, 1)] {
            let middle = fragment(MIDDLE, data[more]);
            all.push([fragment(FIRST, data[first]), middle.repeat(middles)].concat());
        }
    }
    all
}

/// Records, each with how many fragments it has and where, from its start on, the last one's header
/// is.
fn finished() -> [(Vec<u8>, usize, usize); 4] {
    let parts = |parts: &[(u8, &[u8])]| {
        let parts = parts.iter();
        parts
            .flat_map(|(kind, data)| fragment(*kind, data))
            .collect()
    };
    [
        (parts(&[(FULL, b"whole")]), 1, 0),
        (parts(&[(FIRST, b"ga"), (LAST, b"thered")]), 2, 9),
        (parts(&[(FIRST, b""), (LAST, b"")]), 2, 7),
        (
            parts(&[(FIRST, b"a"), (MIDDLE, b""), (MIDDLE, b"b"), (LAST, b"")]),
            4,
            23,
        ),
    ]
}

/// What may come between within a block: nothing; an unknown type; and fragments of the record that
/// take it over the limit, with others after them that are orphans.
fn between() -> Vec<Vec<u8>> {
    let over = fragment(MIDDLE, &[7; LIMIT + 1]);
    vec![
        Vec::new(),
        fragment(5, b"xy"),
        fragment(LAST, &[7; LIMIT + 1]),
        [&over[..], &fragment(MIDDLE, b"cd"), &fragment(LAST, b"")].concat(),
    ]
}

/// The one record of a log starts at a place and has these numbers, also if it is fed in pieces.
fn the_record(random: &mut Random, log: &[u8], start: usize, due: (usize, usize)) {
    let answers = reading(log, LIMIT);
    let [record] = records(&answers)[..] else {
        panic!("{answers:?}");
    };
    hold(log, &record);
    let Next::Record {
        start: at,
        fragments,
        last_header,
        ..
    } = record
    else {
        unreachable!("it is one");
    };
    let due = (start, due.0, start + due.1);
    assert_eq!((at, fragments, last_header), due, "{answers:?}");
    same_in_pieces(random, log, LIMIT, &answers);
}

#[test]
fn within_a_block() {
    let random = &mut Random::new();
    println!("{random}");
    for begun in begun() {
        for between in between() {
            for (record, fragments, last) in finished() {
                let log = [&begun[..], &between, &record].concat();
                let start = begun.len() + between.len();
                the_record(random, &log, start, (fragments, last));
            }
        }
    }
}

/// By a bad fragment of each reason, with which the rest of the block is given up.
#[test]
fn by_a_bad_fragment() {
    let random = &mut Random::new();
    println!("{random}");
    let bad = [
        [0, 0, 0, 0, 0xFF, 0xFF, LAST],
        [0; HEADER],
        [0, 0, 0, 0, 0, 0, LAST],
    ];
    for begun in begun() {
        for bad in bad {
            for (record, fragments, last) in finished() {
                let mut log = [&begun[..], &bad].concat();
                log.resize(BLOCK, 7);
                log.extend(record);
                the_record(random, &log, BLOCK, (fragments, last));
            }
        }
    }
}

/// By a dirty trailer. What fills the block before is over the limit.
#[test]
fn by_a_dirty_trailer() {
    let random = &mut Random::new();
    println!("{random}");
    for begun in begun() {
        for (record, fragments, last) in finished() {
            let filler = BLOCK - HEADER - begun.len() - 3;
            let filler = fragment(FULL, &vec![7; filler]);
            let log = [&filler[..], &begun, &[0, 0, 1], &record].concat();
            the_record(random, &log, BLOCK, (fragments, last));
        }
    }
}

/// One after the other: the third record is not longer by what the first two had.
#[test]
fn again_and_again() {
    let random = &mut Random::new();
    println!("{random}");
    for one in begun() {
        for two in begun() {
            let (record, fragments, last) = &finished()[1];
            let log = [&one[..], &two, record].concat();
            let start = one.len() + two.len();
            the_record(random, &log, start, (*fragments, *last));
        }
    }
}

/// A torn end leaves the record open, and its numbers in the state (§11.7): it may be asked again.
#[test]
fn not_by_a_torn_end() {
    for begun in begun() {
        let mut state = begin(LIMIT as u64).expect("a limit");
        let (mut block, mut buffer) = ([0; BLOCK], [0; LIMIT]);
        // A header of which the last byte does not come.
        let log = [&begun[..], &fragment(LAST, b"")[..6]].concat();
        assert_eq!(take(&mut state, &mut block, &log), Ok(log.len()));
        assert_eq!(next(&mut state, &block, &mut buffer), Told::NotYet);
        let open = fragments(&begun, 0..begun.len());
        let last = open.last().expect("a FIRST at least").place;
        let due = (open.len() as u64, last as u64);
        assert_eq!((state.fragments, state.last_header), due);
        end(&mut state);
        let torn = Told::Answer(Next::End(Tail::Torn(0)));
        for _ in 0..2 {
            assert_eq!(next(&mut state, &block, &mut buffer), torn);
            assert_eq!((state.fragments, state.last_header), due);
        }
    }
}
