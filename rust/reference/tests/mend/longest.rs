//! The longest record (§1.4) and the longest log (§1.6), mended. A few cases of each, since such a
//! record takes long, and of such a log only what is nearly all zeros is quick.

use crate::promises::hold;
use crate::random::Random;
use crate::reading::added;
use reference::log::{append, Appended, BLOCK, HEADER, LONGEST_LOG, LONGEST_RECORD};
use reference::mend::{mend, Mended};

/// The longest record between two short ones: the log, and the marks after each.
fn written(random: &mut Random) -> (Vec<u8>, [usize; 3]) {
    let mut log = Vec::new();
    let marks = [9, LONGEST_RECORD, 5].map(|length| {
        let mark = log.len();
        log.resize(mark + added(mark, length), 0);
        let end = Appended::Mark(log.len());
        assert_eq!(append(&mut log, mark, &random.bytes(length)), end);
        log.len()
    });
    (log, marks)
}

#[test]
fn record() {
    let random = &mut Random::new();
    println!("{random}");
    let (log, _) = written(random);
    assert!(hold(random, &log, LONGEST_RECORD) == (log, 0));
}

/// At a limit that it is over by a byte, the records before it and after it come out. With its last
/// byte changed the one before it does alone, since the rest of the block is given up.
#[test]
fn record_left_out() {
    let random = &mut Random::new();
    println!("{random}");
    let (mut log, [first, second, end]) = written(random);
    let (mended, skipped) = hold(random, &log, LONGEST_RECORD - 1);
    assert_eq!(skipped, second - first);
    assert_eq!(mended.len(), first + (end - second));
    log[second - 1] ^= 1;
    let (mended, skipped) = hold(random, &log, LONGEST_RECORD);
    assert_eq!(skipped, end - first);
    assert_eq!(mended.len(), first);
}

/// Without its last byte it is a torn tail.
#[test]
fn record_cut() {
    let random = &mut Random::new();
    println!("{random}");
    let (log, [first, second, _]) = written(random);
    let (mended, skipped) = hold(random, &log[..second - 1], LONGEST_RECORD);
    assert!((&mended[..], skipped) == (&log[..first], 0));
}

/// A record at the start of the longest log, and one that fills its last block.
#[test]
fn log() {
    let mut bad = vec![0; LONGEST_LOG];
    let record = [7; BLOCK - HEADER];
    let last = LONGEST_LOG - BLOCK;
    assert_eq!(append(&mut bad, 0, b"one"), Appended::Mark(10));
    assert_eq!(append(&mut bad, last, &record), Appended::Mark(LONGEST_LOG));
    let length = 10 + added(10, record.len());
    let mut log = vec![0; length];
    assert_eq!(append(&mut log, 0, b"one"), Appended::Mark(10));
    assert_eq!(append(&mut log, 10, &record), Appended::Mark(length));
    let skipped = last - 10;
    let due = Mended::Log { length, skipped };
    for room in [length, LONGEST_LOG] {
        let mut fresh = vec![0; room];
        assert_eq!(mend(&bad, &mut fresh, BLOCK, &mut [0; BLOCK]), due);
        assert!(fresh[..length] == log);
    }
}
