//! All ways of cutting twelve bytes into pieces, at a log's start and at a block's end.

use crate::dirty::Met;
use crate::fed::Fed;
use crate::make;
use crate::random::Random;
use reference::feed::{self, reading, take, Told};
use reference::log::{fragment, Next, BLOCK, FIRST, FULL, HEADER, LAST, MIDDLE};

const CUT: usize = 12;

/// Feeds the last twelve bytes in every way. What comes before them has been fed and drawn. Block
/// and buffer are held to what they have to be when all has come.
fn every_cutting(fed: &Fed) {
    let mut straight = fed.clone();
    while straight.came() < straight.log.len() {
        straight.offer(CUT);
        straight.draw_all();
    }
    straight.end();
    straight.finish();
    // A bit for each place between two bytes: whether there is a cut.
    for cuts in 0..1u32 << (CUT - 1) {
        let mut cut = fed.clone();
        let mut from = 0;
        for to in 1..=CUT {
            if to == CUT || cuts >> (to - 1) & 1 == 1 {
                piece(&mut cut, to - from);
                from = to;
            }
        }
        feed::end(&mut cut.state);
        while !matches!(cut.answers.last(), Some(Next::End(_))) {
            assert!(draw(&mut cut), "nothing more, though the end is announced");
        }
        cut.answers.pop();
        assert_eq!(cut.answers, straight.answers);
        assert_eq!(cut.state, straight.state);
        assert!(cut.block == straight.block);
        assert!(cut.buffer == straight.buffer);
    }
}

/// A piece of the log, and then all that is certain.
fn piece(fed: &mut Fed, length: usize) {
    let mut rest = &fed.log[fed.came()..fed.came() + length];
    while !rest.is_empty() {
        let taken = take(&mut fed.state, &mut fed.block, rest).expect("not refused");
        assert!(taken > 0, "no room, though nothing more was certain");
        rest = &rest[taken..];
        while draw(fed) {}
    }
}

/// Whether there was an answer.
fn draw(fed: &mut Fed) -> bool {
    match feed::next(&mut fed.state, &fed.block, &mut fed.buffer) {
        Told::Answer(answer) => {
            let early = matches!(answer, Next::End(_)) && fed.state.over == 0;
            assert!(!early, "an end that is not announced");
            fed.answers.push(answer);
            true
        }
        Told::NotYet => false,
        Told::Refused(number) => panic!("refused with {number}"),
    }
}

/// Twelve bytes of each kind: records, broken ones, bad ones, and two of any.
fn twelves(random: &mut Random) -> Vec<Vec<u8>> {
    let bad_sum = || {
        let mut bad = fragment(FULL, &[7; 5]);
        bad[11] ^= 1;
        bad
    };
    vec![
        fragment(FULL, &[7; 5]),
        fragment(FIRST, &[7; 5]),
        fragment(LAST, &[7; 5]),
        [fragment(FIRST, &[]), fragment(LAST, &[])[..5].to_vec()].concat(),
        [fragment(FIRST, &[7; 2]), vec![0; 3]].concat(),
        [fragment(FULL, &[]), vec![0xFF; 5]].concat(),
        [vec![0, 0, 0, 0, 0xFF, 0xFF, 1], vec![7; 5]].concat(),
        vec![0; CUT],
        bad_sum(),
        make::log(random, CUT, 5),
        make::log(random, CUT, 2),
    ]
}

#[test]
fn of_twelve_bytes() {
    let random = &mut Random::new();
    println!("{random}");
    for twelve in twelves(random) {
        let limit = make::pick(random, &[4, 5, 9]);
        every_cutting(&Fed::new(random, &twelve, limit));
    }
}

/// With an empty FIRST before them, and an empty MIDDLE as well.
#[test]
fn of_twelve_bytes_after_an_empty_first() {
    let random = &mut Random::new();
    println!("{random}");
    let mut starts = 0;
    for twelve in twelves(random) {
        for before in [&[FIRST][..], &[FIRST, MIDDLE]] {
            let before: Vec<u8> = before
                .iter()
                .flat_map(|&kind| fragment(kind, &[]))
                .collect();
            let log = [&before, &twelve[..]].concat();
            let mut fed = Fed::new(random, &log, 9);
            fed.offer(before.len());
            fed.draw_all();
            every_cutting(&fed);
            let first = reading(&log, 9)[0];
            starts += usize::from(matches!(first, Next::Skip { reason: 8, .. }));
        }
    }
    // By a FULL of five bytes, by a FIRST, and by those of fewer bytes.
    assert!(starts >= 8, "{starts} empty starts");
}

/// A trailer, of zeros and with each byte dirty, and what would complete a record: after a record,
/// inside one, and inside an empty one.
#[test]
fn of_twelve_bytes_that_begin_with_a_trailer() {
    let random = &mut Random::new();
    println!("{random}");
    let met = &mut Met::default();
    for bytes in [1, 3, 6] {
        let data = vec![7; BLOCK - HEADER - bytes];
        let heads = [
            fragment(FULL, &data),
            fragment(FIRST, &data),
            [fragment(FULL, &data[HEADER..]), fragment(FIRST, b"")].concat(),
        ];
        for (head, dirty) in heads
            .iter()
            .flat_map(|head| (0..=bytes).map(move |i| (head, i)))
        {
            // Past its end there is none that is dirty.
            let trailer: Vec<u8> = (0..bytes).map(|i| u8::from(i == dirty)).collect();
            let mut log = [head, &trailer[..], &fragment(LAST, &[7; 4])].concat();
            log.truncate(head.len() + CUT);
            let mut fed = Fed::new(random, &log, BLOCK);
            fed.offer(head.len());
            fed.draw_all();
            every_cutting(&fed);
            met.count(&reading(&log, BLOCK));
        }
    }
    met.at_least(10, 20);
}

/// With a record, a FIRST or bad bytes before them, and as many of them in the next block.
#[test]
fn of_twelve_bytes_at_a_blocks_end() {
    let random = &mut Random::new();
    println!("{random}");
    for (i, twelve) in twelves(random).iter().enumerate() {
        let after = [0, 1, 5, 12, 9, 6][i % 6];
        let kind = [FULL, FIRST, 9][i % 3];
        let data = random.bytes(BLOCK - HEADER - CUT + after);
        let log = [&fragment(kind, &data), &twelve[..]].concat();
        let mut fed = Fed::new(random, &log, BLOCK);
        fed.offer(log.len() - CUT);
        fed.draw_all();
        every_cutting(&fed);
    }
}
