//! A journal of the greatest length, records from end to end.

use crate::both;
use crate::lent::Lent;
use crate::make::record_length;
use crate::random::Random;
use mellansko::numbers;
use reference::log::{Appended, Next, Tail, BLOCK, HEADER, LONGEST_LOG, LONGEST_RECORD};

/// So much of it is written, and is there sixteen times: to write all of it would take long.
const PART: usize = LONGEST_LOG / 16;

/// Read at the places near its end and all of it, and mended into a slice that it just fits into.
pub fn read_and_mended(random: &mut Random) {
    let mut log = Lent::zeros(LONGEST_LOG, random);
    let marks = written(&mut log, random);
    let mut buffer = Lent::new(&random.bytes(LONGEST_RECORD), random);
    near_the_end(&mut log, &marks, &mut buffer);
    read(&log, &marks, &mut buffer);
    mended(&log, &mut buffer, random);
    assert!(log.is_same(), "log");
}

/// The marks at which the records of a part were appended, by both. The last ends with the part.
fn written(log: &mut Lent, random: &mut Random) -> Vec<usize> {
    let mut record = Lent::new(&random.bytes(LONGEST_RECORD), random);
    let (mut mark, mut marks) = (0, Vec::new());
    while mark < PART {
        record.cut(length(mark, random));
        let Appended::Mark(end) = both::append(log, mark, &record) else {
            panic!("no room at {mark}");
        };
        marks.push(mark);
        mark = end;
    }
    let (tested, expected) = log.both_mut();
    for copy in [tested, expected] {
        for place in (PART..LONGEST_LOG).step_by(PART) {
            copy.copy_within(..PART, place);
        }
    }
    marks
}

/// Mostly the longest, so that they are not too many; up to where the last one fills the part.
fn length(mark: usize, random: &mut Random) -> usize {
    let left = PART - mark;
    if left < 2 * BLOCK && BLOCK - mark % BLOCK > 40 {
        return left - HEADER * left.div_ceil(BLOCK);
    }
    let length = match random.below(4) {
        0 => record_length(random, mark, 18),
        1 => random.below(LONGEST_RECORD),
        _ => LONGEST_RECORD,
    };
    let most = left.saturating_sub(BLOCK + 1_000);
    length.min(LONGEST_RECORD).min(most)
}

/// Every record where it was appended, or after a trailer there, and a clean end.
fn read(log: &Lent, marks: &[usize], buffer: &mut Lent) {
    let mut place = 0;
    let parts = (0..LONGEST_LOG).step_by(PART);
    for mark in parts.flat_map(|part| marks.iter().map(move |mark| part + mark)) {
        let answer = both::next(log, place, LONGEST_RECORD, buffer);
        let Next::Record { start, end, .. } = answer else {
            panic!("{answer:?} at {place}");
        };
        assert!(place == mark && start - mark < HEADER, "{answer:?}, {mark}");
        place = end;
    }
    let end = both::next(log, place, LONGEST_RECORD, buffer);
    assert_eq!((place, end), (LONGEST_LOG, Next::End(Tail::Clean)));
}

/// The last three records, and places that were made up, of all of the log and of it cut by a byte.
fn near_the_end(log: &mut Lent, marks: &[usize], buffer: &mut Lent) {
    let last = marks.iter().rev().take(3);
    let last: Vec<usize> = last.map(|mark| LONGEST_LOG - PART + mark).collect();
    for length in [LONGEST_LOG, LONGEST_LOG - 1] {
        log.cut(length);
        let made_up = LONGEST_LOG - 20..=LONGEST_LOG + 1;
        for place in last.iter().copied().chain(made_up) {
            for limit in [LONGEST_RECORD, 10] {
                both::next(log, place, limit, buffer);
            }
        }
    }
    log.cut(LONGEST_LOG);
}

/// Into as many bytes as it has. What is due is known without the reference (docs/FORMAT.md, §12.7),
/// which would take long, and a gigabyte more. The buffer is left as by the reading before it (§12.3).
fn mended(log: &Lent, buffer: &mut Lent, random: &mut Random) {
    let mut fresh = Lent::zeros(LONGEST_LOG, random);
    let mut answer = both::unwritten();
    let (slice, gathered) = (fresh.tested_mut(), buffer.tested_mut());
    let kind = numbers::mend(
        log.tested(),
        slice,
        LONGEST_RECORD,
        gathered,
        answer.tested(),
    );
    let whole = [0, LONGEST_LOG as u64, 0, 0, 0, 0, 0, 0, 0, 0];
    both::same(kind, answer, whole, "mended");
    fresh.expected_mut().copy_from_slice(log.expected());
    assert!(fresh.is_same(), "fresh slice");
    assert!(buffer.is_same(), "buffer");
}
