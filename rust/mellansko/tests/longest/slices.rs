//! Slices at the greatest length and one byte above it that hold zeros and little else: most of them
//! is never written, and takes up no memory.

use crate::both;
use crate::lent::Lent;
use crate::random::Random;
use reference::log::{fragment, Next, Tail, BLOCK, FULL, HEADER, LONGEST_LOG, LONGEST_RECORD};

/// Refusal 1, each other one at the end of a log that is not too long, and what is accepted there
/// and at mark 0. Then all of it is read.
pub fn appended_to_and_read(random: &mut Random) {
    let mut log = Lent::zeros(LONGEST_LOG + 1, random);
    let mut record = Lent::new(&random.bytes(LONGEST_RECORD + 1), random);
    let mut buffer = Lent::new(&random.bytes(LONGEST_RECORD), random);
    let (end, above) = (LONGEST_LOG, [LONGEST_LOG + 1, LONGEST_LOG + 2, usize::MAX]);
    for length in [LONGEST_LOG + 1, LONGEST_LOG] {
        log.cut(length);
        for mark in [0, end - 107, end - 100, end - 7, end - 6, end]
            .into_iter()
            .chain(above)
        {
            for bytes in [0, 93, 94, 100, 101, LONGEST_RECORD, LONGEST_RECORD + 1] {
                record.cut(bytes);
                both::append(&mut log, mark, &record);
            }
            for limit in [0, 93, LONGEST_RECORD, LONGEST_RECORD + 1] {
                both::next(&log, mark, limit, &mut buffer);
            }
        }
    }
    // The record at 0 is over this limit.
    let mut buffer = Lent::new(&random.bytes(100), random);
    let skips = read(&log, 100, &mut buffer);
    assert!(skips >= LONGEST_LOG / BLOCK, "only {skips} ranges");
    assert!(log.is_same(), "log");
}

/// All answers up to a clean end; gives how many ranges were skipped.
fn read(log: &Lent, limit: usize, buffer: &mut Lent) -> usize {
    let (mut place, mut skips) = (0, 0);
    loop {
        let answer = both::next(log, place, limit, buffer);
        place = answer.place_after(log.expected());
        match answer {
            Next::Skip { .. } => skips += 1,
            Next::Record { .. } => {}
            Next::End(tail) => break assert_eq!(tail, Tail::Clean),
            Next::Refused { number, .. } => panic!("refused with {number}"),
        }
    }
    skips
}

/// A bad log and a fresh slice of these lengths, with a record at the bad log's start and one that
/// ends with it.
pub fn mended(random: &mut Random) {
    let [first, last] = [random.bytes(13), random.bytes(BLOCK - HEADER)];
    let mut bad = Lent::zeros(LONGEST_LOG + 1, random);
    bad.put(0, &fragment(FULL, &first));
    bad.put(LONGEST_LOG - BLOCK, &fragment(FULL, &last));
    let mut fresh = Lent::zeros(LONGEST_LOG + 1, random);
    fresh.put(0, &random.bytes(2 * BLOCK));
    let mut buffer = Lent::new(&random.bytes(LONGEST_RECORD + 1), random);
    // The second record lies in two blocks of the mended log, and so has a header more.
    let (one, two) = (HEADER + 13, 2 * HEADER + 13 + BLOCK);
    let (edge, above) = (LONGEST_LOG, LONGEST_LOG + 1);
    for (bad_length, fresh_length, number) in [
        (edge, edge, 0),
        (edge, two, 0),
        (edge, two - 1, 4),
        (edge - 1, one, 0),
        (edge, above, 1),
        (above, edge, 1),
        (above, above, 1),
        (one, above, 1),
        (above, 0, 1),
    ] {
        bad.cut(bad_length);
        fresh.cut(fresh_length);
        let answer = both::mend(&bad, &mut fresh, BLOCK, &mut buffer);
        let refused = if answer[0] == 1 { answer[1] } else { 0 };
        assert_eq!(refused, number, "{bad_length} into {fresh_length}");
        both::mend(&bad, &mut fresh, LONGEST_RECORD + 1, &mut buffer);
        // 6, or 1 before it.
        buffer.cut(BLOCK - 1);
        both::mend(&bad, &mut fresh, BLOCK, &mut buffer);
        buffer.cut(LONGEST_RECORD + 1);
    }
    assert!(bad.is_same() && fresh.is_same(), "bad log or fresh slice");
}
