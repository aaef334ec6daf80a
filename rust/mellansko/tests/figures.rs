//! The two figures (docs/FORMAT.md, §15), found out from the calls that are linked: each by the length
//! that is the first to be refused with its number. Nothing is read or written for that: the slices
//! are zeros that are never touched, and take up no memory.

use mellansko::numbers::{self, feed, Numbers};
use mellansko::{Answer, Reading, Reason, Tail, BLOCK, LONGEST_LOG, LONGEST_RECORD};

/// A quarter more than a log may have, and far more than a record may.
const MOST: usize = 5 << 28;

const LOG_TOO_LONG: u64 = 1;
const RECORD_TOO_LONG: u64 = 3;
const LIMIT_TOO_HIGH: u64 = 5;

/// The most bytes that a call does not refuse with this number.
fn most(number: u64, call: impl Fn(usize) -> u64) -> usize {
    let (mut accepted, mut refused) = (0, MOST);
    assert!(call(accepted) != number && call(refused) == number);
    while refused - accepted > 1 {
        let middle = accepted + (refused - accepted) / 2;
        if call(middle) == number {
            refused = middle;
        } else {
            accepted = middle;
        }
    }
    accepted
}

/// The number of a refusal, which is of this kind; 0 if there is none.
fn refused(kind: u64, call: impl FnOnce(&mut Numbers) -> u64) -> u64 {
    let mut answer = [u64::MAX; 10];
    if call(&mut answer) == kind {
        answer[1]
    } else {
        0
    }
}

const APPEND: u64 = 1;
const NEXT: u64 = 3;
const FEED: u64 = 1;
const MEND: u64 = 1;

#[test]
fn of_a_record() {
    let zeros = vec![0; MOST];
    let append = |length: usize| {
        refused(APPEND, |answer| {
            numbers::append(&mut [], 0, &zeros[..length], answer)
        })
    };
    let next = |limit| refused(NEXT, |answer| numbers::next(&[], 0, limit, &mut [], answer));
    let begin = |limit| refused(FEED, |answer| feed::begin(limit, &mut [0; 10], answer));
    let mend = |limit| {
        refused(MEND, |answer| {
            numbers::mend(&[], &mut [], limit, &mut [], answer)
        })
    };
    assert_eq!(LONGEST_RECORD, 4_194_304);
    assert_eq!(most(RECORD_TOO_LONG, append), LONGEST_RECORD);
    assert_eq!(most(LIMIT_TOO_HIGH, next), LONGEST_RECORD);
    assert_eq!(most(LIMIT_TOO_HIGH, begin), LONGEST_RECORD);
    assert_eq!(most(LIMIT_TOO_HIGH, mend), LONGEST_RECORD);
}

/// Where a log that is not too long would be looked at, it is refused for something else.
#[test]
fn of_a_log() {
    let zeros = vec![0; MOST];
    let (limit, end) = (LONGEST_RECORD + 1, MOST + 1);
    let append = |length: usize| {
        let log = &mut vec![0; length];
        refused(APPEND, |answer| numbers::append(log, end, &[], answer))
    };
    let next = |length: usize| {
        let log = &zeros[..length];
        refused(NEXT, |answer| {
            numbers::next(log, end, limit, &mut [], answer)
        })
    };
    let take = |length: usize| {
        let piece = &zeros[..length];
        refused(FEED, |answer| {
            feed::take(&mut [0; 10], &mut [0; BLOCK], piece, answer)
        })
    };
    let bad = |length: usize| {
        let bad = &zeros[..length];
        refused(MEND, |answer| {
            numbers::mend(bad, &mut [], limit, &mut [], answer)
        })
    };
    let fresh = |length: usize| {
        let fresh = &mut vec![0; length];
        refused(MEND, |answer| {
            numbers::mend(&[], fresh, limit, &mut [], answer)
        })
    };
    assert_eq!(LONGEST_LOG, 1_073_741_824);
    assert_eq!(most(LOG_TOO_LONG, append), LONGEST_LOG);
    assert_eq!(most(LOG_TOO_LONG, next), LONGEST_LOG);
    assert_eq!(most(LOG_TOO_LONG, take), LONGEST_LOG);
    assert_eq!(most(LOG_TOO_LONG, bad), LONGEST_LOG);
    assert_eq!(most(LOG_TOO_LONG, fresh), LONGEST_LOG);
}

/// §15.2: the log is full with it, and it reads back.
#[test]
fn of_the_longest_record_in_129_fragments() {
    let record: Vec<u8> = (0..LONGEST_RECORD).map(|i| (i % 251) as u8).collect();
    let mut log = vec![0xA5; LONGEST_RECORD + 129 * 7];
    assert_eq!(mellansko::append(&mut log, 0, &record), Ok(4_195_207));
    assert_eq!(log.len(), 4_195_207);
    assert!(mellansko::records(&log).expect("a whole log") == [&record[..]]);
    let Some(Answer::Record { record, .. }) = Reading::of(&log).expect("no refusal").next() else {
        panic!("a record");
    };
    assert_eq!((record.fragments, record.last_header), (129, 4_194_304));
}

/// §15.2, the last lines.
#[test]
fn of_the_longest_log_in_zeros() {
    let log = vec![0; LONGEST_LOG];
    let mut reading = Reading::with_limit(&log, 0).expect("no refusal");
    for block in 0..LONGEST_LOG / BLOCK {
        let Some(Answer::Skip(skip)) = reading.advance() else {
            panic!("a skipped range in block {block}");
        };
        assert_eq!((skip.start, skip.end), (block * BLOCK, (block + 1) * BLOCK));
        assert_eq!(skip.reason, Reason::Blank);
    }
    assert_eq!(reading.advance(), Some(Answer::End(Tail::Clean)));
}
