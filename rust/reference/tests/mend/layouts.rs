//! *Never longer* (§12.4), tried with layouts that nobody would write: records in any fragments
//! around the ends of blocks, and marks that lag behind by what was skipped.

use crate::dirty::Met;
use crate::make::pick;
use crate::odd::trailer;
use crate::promises::hold;
use crate::random::Random;
use crate::reading::added;
use reference::feed;
use reference::log::{append, fragment, Appended, BLOCK, FIRST, FULL, HEADER, LAST, MIDDLE};

/// A place in a bad log, and the mark that mending is at by then.
#[derive(Clone, Copy)]
struct At {
    place: usize,
    mark: usize,
    /// The bytes so far of a record that is open.
    open: Option<usize>,
}

/// Every way of going on with so many fragments, in numbers alone. Gives how many there are.
fn ways(at: At, fragments: usize) -> usize {
    if fragments == 0 {
        return 1;
    }
    let left = BLOCK - at.place % BLOCK;
    if left < HEADER {
        let place = at.place + left;
        return ways(At { place, ..at }, fragments);
    }
    let room = left - HEADER;
    let mut count = 0;
    for data in edges(room) {
        let place = at.place + HEADER + data;
        let length = at.open.unwrap_or(0) + data;
        let mark = at.mark + added(at.mark, length);
        assert!(mark <= place, "{mark} for {place}");
        let (skipped, handed_out) = (at.mark, mark);
        // A FULL or a LAST; a FIRST or a MIDDLE; and a fragment that is skipped.
        for (mark, open) in [(handed_out, None), (skipped, Some(length)), (skipped, None)] {
            count += ways(At { place, mark, open }, fragments - 1);
        }
    }
    count
}

/// Few bytes, or about as many as there is room for.
fn edges(room: usize) -> impl Iterator<Item = usize> {
    let few = 0..=room.min(2);
    let many = [8, 7, 6, 1, 0].map(|less| room.checked_sub(less));
    few.chain(many.into_iter().flatten().filter(move |many| *many > 2))
}

/// From every place and every mark around a block's end, the mark at the place or behind it.
#[test]
fn in_numbers() {
    let mut count = 0;
    for place in BLOCK - 24..=BLOCK + 8 {
        for mark in place - 24..=place {
            let fragments = if mark == place { 5 } else { 3 };
            let open = None;
            count += ways(At { place, mark, open }, fragments);
        }
    }
    assert!(count > 10_000_000, "only {count}");
}

/// A mark that is further on never makes an append end sooner; nor does a record that is longer.
#[test]
fn in_order() {
    for n in [0, 1, 2, 7, 100, BLOCK - 8, BLOCK - 7, BLOCK - 6, 70_000] {
        for mark in 0..2 * BLOCK {
            let end = mark + added(mark, n);
            assert!(end <= mark + 1 + added(mark + 1, n), "{n} at {mark}");
            assert!(end < mark + added(mark, n + 1), "{n} at {mark}");
        }
    }
}

/// The same in bytes: sound fragments, most of them of records that come out.
fn log(random: &mut Random) -> Vec<u8> {
    let mut log = Vec::new();
    let mut open = false;
    for _ in 0..2 + random.below(9) {
        let left = BLOCK - log.len() % BLOCK;
        if left < HEADER {
            log.extend(trailer(random, left));
        }
        let room = BLOCK - log.len() % BLOCK - HEADER;
        let few = random.below(9).min(room);
        let data = match random.below(8) {
            0 => 0,
            1..=4 => few,
            5 => room,
            6 => room - few,
            _ => room - random.below(30).min(room),
        };
        let kind = match (random.below(10), open) {
            (0, _) => pick(random, &[FULL, FIRST, MIDDLE, LAST, 0, 9]),
            (_, true) => pick(random, &[MIDDLE, LAST]),
            (_, false) => pick(random, &[FULL, FIRST]),
        };
        open = kind == FIRST || kind == MIDDLE && open;
        log.extend(fragment(kind, &vec![data as u8; data]));
    }
    log
}

#[test]
fn in_bytes() {
    let random = &mut Random::new();
    println!("{random}");
    let met = &mut Met::default();
    for _ in 0..200 {
        let bad = log(random);
        // No record has more bytes than the log.
        hold(random, &bad, bad.len());
        let limit = pick(random, &[0, 1, 8, BLOCK - HEADER, BLOCK]);
        hold(random, &bad, limit);
        met.count(&feed::reading(&bad, bad.len()));
    }
    met.at_least(5, 5);
}

/// No byte of a writer's log can be spared: it mends to as many bytes, at every place near the end
/// of a block.
#[test]
fn as_long_as_it_was() {
    let random = &mut Random::new();
    println!("{random}");
    for left in 0..20 {
        let filler = fragment(FULL, &vec![1; BLOCK - HEADER - left]);
        for length in [0, 1, 2, left, left + 7] {
            let mut bad = filler.clone();
            let mark = bad.len();
            bad.resize(mark + added(mark, length), 0);
            let end = Appended::Mark(bad.len());
            assert_eq!(append(&mut bad, mark, &vec![2; length]), end);
            assert!(hold(random, &bad, BLOCK) == (bad, 0));
        }
    }
}
