//! The refusals of §12.5: each number exactly where its condition holds, the first that holds of
//! several, and nothing changed.

use reference::log::{append, Appended, LONGEST_LOG, LONGEST_RECORD};
use reference::mend::{mend, Mended};
use std::sync::LazyLock;

/// Two records, as §9.1 has them, that take 38 bytes; and then zeros, up to a byte more than a log
/// may have.
static BAD: LazyLock<Vec<u8>> = LazyLock::new(|| {
    let mut log = vec![0; LONGEST_LOG + 1];
    let mark = append(&mut log[..38], 0, b"LW10-1 0.9137");
    assert_eq!(mark, Appended::Mark(20));
    let mark = append(&mut log[..38], 20, b"LW11 0.8412");
    assert_eq!(mark, Appended::Mark(38));
    log
});

/// The places of a fresh slice that are filled and looked at: a few at its start and at its end.
/// The rest are zeros, which take no memory until they are touched; all of a long one would take
/// long to look at.
fn ends(fresh: usize) -> impl Iterator<Item = usize> {
    let few = fresh.min(1_000);
    (0..few).chain(fresh - few..fresh)
}

/// The answer for slices of these lengths. That a refusal changes nothing, and gives back 0, is
/// seen to.
fn answer(bad: usize, fresh: usize, limit: usize, buffer: usize) -> Result<(usize, usize), u8> {
    let mut slice = vec![0; fresh];
    ends(fresh).for_each(|place| slice[place] = 0xA5);
    let as_it_was = |slice: &[u8], from: usize| {
        let mut rest = ends(fresh).filter(|place| *place >= from);
        rest.all(|place| slice[place] == 0xA5)
    };
    let mut lent = vec![0x5A; buffer];
    match mend(&BAD[..bad], &mut slice, limit, &mut lent) {
        Mended::Log { length, skipped } => {
            assert!(slice[..length] == BAD[..length]);
            assert!(as_it_was(&slice, length), "the rest of the fresh slice");
            Ok((length, skipped))
        }
        Mended::Refused { number, given } => {
            assert_eq!(given, 0);
            assert!(as_it_was(&slice, 0), "the fresh slice");
            assert!(lent.iter().all(|byte| *byte == 0x5A), "the buffer");
            Err(number)
        }
    }
}

const MOST: usize = LONGEST_LOG;
const HIGH: usize = LONGEST_RECORD;

/// Each number at its edge, with no other condition.
#[test]
fn alone() {
    let rows = [
        (38, 38, 13, 13, Ok((38, 0))),
        (MOST, 38, 13, 13, Ok((38, MOST - 38))),
        (MOST + 1, 38, 13, 13, Err(1)),
        (38, MOST, 13, 13, Ok((38, 0))),
        (38, MOST + 1, 13, 13, Err(1)),
        (MOST, MOST, 13, 13, Ok((38, MOST - 38))),
        (MOST + 1, MOST + 1, 13, 13, Err(1)),
        (38, 38, HIGH, HIGH, Ok((38, 0))),
        (38, 38, HIGH + 1, HIGH + 1, Err(5)),
        (38, 38, HIGH + 1, HIGH + 9, Err(5)),
        (38, 38, 13, 14, Ok((38, 0))),
        (38, 38, 13, 12, Err(6)),
        (38, 38, 13, 0, Err(6)),
        (38, 38, HIGH, HIGH - 1, Err(6)),
        (38, 37, 13, 13, Err(4)),
        (38, 20, 13, 13, Err(4)),
        (38, 19, 13, 13, Err(4)),
        (38, 0, 13, 13, Err(4)),
    ];
    for (bad, fresh, limit, buffer, due) in rows {
        let case = format!("{bad}, {fresh}, {limit}, {buffer}");
        assert_eq!(answer(bad, fresh, limit, buffer), due, "{case}");
    }
}

/// What does not come out takes no room: nothing, a torn tail, what is over the limit.
#[test]
fn none_for_what_is_not_appended() {
    assert_eq!(answer(0, 0, 0, 0), Ok((0, 0)));
    assert_eq!(answer(6, 0, 13, 13), Ok((0, 0)));
    assert_eq!(answer(19, 0, 13, 13), Ok((0, 0)));
    assert_eq!(answer(37, 20, 13, 13), Ok((20, 0)));
    assert_eq!(answer(37, 19, 13, 13), Err(4));
    assert_eq!(answer(38, 0, 10, 10), Ok((0, 38)));
    assert_eq!(answer(38, 0, 0, 0), Ok((0, 38)));
}

/// A record after the one that does not fit would fit by itself: that makes no difference.
#[test]
fn for_all_of_the_records_together() {
    let mut bad = [0; 64];
    assert_eq!(append(&mut bad, 0, &[7; 50]), Appended::Mark(57));
    assert_eq!(append(&mut bad, 57, b""), Appended::Mark(64));
    for (length, due) in [(56, Some(4)), (57, Some(4)), (63, Some(4)), (64, None)] {
        let mut fresh = vec![0xA5; length];
        let called = mend(&bad, &mut fresh, 50, &mut [0; 50]);
        let refused = match called {
            Mended::Refused { number, .. } => Some(number),
            Mended::Log { .. } => None,
        };
        assert_eq!(refused, due, "{length}");
        assert!(refused.is_none() || fresh.iter().all(|byte| *byte == 0xA5));
    }
}

/// Every combination of the conditions: 1, then 5, then 6, and 4 last. A limit that is too high and
/// a buffer that is too short for it are two conditions as well.
#[test]
fn in_their_order() {
    for bad in [38, MOST + 1] {
        for fresh in [37, 38, MOST + 1] {
            for limit in [13, HIGH + 1, usize::MAX] {
                for buffer in [12, 13, HIGH + 1] {
                    let due = [
                        (bad > MOST, 1),
                        (fresh > MOST, 1),
                        (limit > HIGH, 5),
                        (buffer < limit, 6),
                        (fresh < 38, 4),
                    ];
                    let due = due.iter().find(|(holds, _)| *holds);
                    let due = due.map_or(Ok((38, 0)), |(_, number)| Err(*number));
                    let case = format!("{bad}, {fresh}, {limit}, {buffer}");
                    assert_eq!(answer(bad, fresh, limit, buffer), due, "{case}");
                }
            }
        }
    }
    // All but the first, with nothing lent to write to.
    assert_eq!(answer(38, 0, HIGH + 1, 0), Err(5));
}

/// A log of the longest records that fills all of a slice: one byte less is too few. (To sum all of
/// the longest log would take long; tests/mend/longest.rs has one that is nearly all zeros.)
#[test]
fn for_a_log_that_fills_its_slice() {
    let all = 4 * LONGEST_RECORD;
    let record = vec![7; LONGEST_RECORD];
    let mut bad = vec![0; all];
    let mut mark = 0;
    while let Appended::Mark(new) = append(&mut bad, mark, &record) {
        mark = new;
    }
    let left = all - mark;
    let headers = 7 * left.div_ceil(32_768);
    let last = append(&mut bad, mark, &record[..left - headers]);
    assert_eq!(last, Appended::Mark(all));
    let mut buffer = vec![0; LONGEST_RECORD];
    let mut fresh = vec![0xA5; all];
    let (length, skipped) = (all, 0);
    let mended = Mended::Log { length, skipped };
    assert_eq!(mend(&bad, &mut fresh, LONGEST_RECORD, &mut buffer), mended);
    assert!(fresh == bad);
    let (number, given) = (4, 0);
    assert_eq!(
        mend(&bad, &mut fresh[1..], LONGEST_RECORD, &mut buffer),
        Mended::Refused { number, given }
    );
    assert!(fresh == bad);
}
