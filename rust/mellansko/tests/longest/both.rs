//! One call to both, at the same time: neither has anything of what the other is lent. The short
//! slices are compared after each call; the long ones by whoever calls.

use crate::lent::Lent;
use crate::told;
use crate::words::Words;
use mellansko::numbers;
use reference::log::{self, record_bytes, Appended, Next};
use reference::mend::mend_words;
use std::thread;

pub fn append(log: &mut Lent, mark: usize, record: &Lent) -> Appended {
    let call = format!(
        "append of {} bytes at {mark} of {}",
        record.len(),
        log.len()
    );
    let mut answer = unwritten();
    let words = answer.tested();
    let (tested, expected) = log.both_mut();
    let (kind, appended) = at_once(
        || numbers::append(tested, mark, record.tested(), words),
        || log::append(expected, mark, record.expected()),
    );
    same(kind, answer, told::of_appended(appended), &call);
    assert!(record.is_same(), "record, {call}");
    appended
}

pub fn next(log: &Lent, place: usize, limit: usize, buffer: &mut Lent) -> Next {
    let call = format!("next at {place} of {}, limit {limit}", log.len());
    let mut answer = unwritten();
    let words = answer.tested();
    let (tested, expected) = buffer.both_mut();
    let (kind, next) = at_once(
        || numbers::next(log.tested(), place, limit, tested, words),
        || log::next(log.expected(), place, limit, expected),
    );
    let words = told::of_next(next, log.expected());
    same(kind, answer, words, &call);
    assert!(buffer.is_same(), "buffer, {call}");
    let tested = told::bytes(&words, log.tested(), buffer.tested());
    let expected = record_bytes(log.expected(), buffer.expected(), &next);
    assert!(tested == expected, "bytes asked for, {call}");
    next
}

pub fn mend(bad: &Lent, fresh: &mut Lent, limit: usize, buffer: &mut Lent) -> [u64; 10] {
    let call = format!("{} into {}, limit {limit}", bad.len(), fresh.len());
    let mut answer = unwritten();
    let words = answer.tested();
    let (tested, expected) = fresh.both_mut();
    let (gathered, expected_gathered) = buffer.both_mut();
    let (kind, mended) = at_once(
        || numbers::mend(bad.tested(), tested, limit, gathered, words),
        || mend_words(bad.expected(), expected, limit, expected_gathered),
    );
    same(kind, answer, mended, &call);
    assert!(buffer.is_same(), "buffer, {call}");
    mended
}

/// Such words as no answer has, so that one that is left out shows.
pub fn unwritten() -> Words {
    Words::new([u64::MAX; 10])
}

/// What is returned, and all ten words with what is around them.
pub fn same(kind: u64, mut answer: Words, expected: [u64; 10], call: &str) {
    *answer.expected() = expected;
    let (tested, with_around) = answer.both();
    assert_eq!(tested, with_around, "answer, {call}");
    assert_eq!(kind, expected[0], "what is returned, {call}");
}

/// Two calls on two cores, where there are two: a gigabyte takes each of them seconds.
fn at_once<A: Send, B>(tested: impl FnOnce() -> A + Send, expected: impl FnOnce() -> B) -> (A, B) {
    thread::scope(|scope| {
        let tested = scope.spawn(tested);
        let expected = expected();
        (tested.join().expect("no panic in a call"), expected)
    })
}
