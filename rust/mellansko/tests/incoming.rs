//! A log that comes from a source of bytes: from one that gives a few at a time, that fails and goes
//! on, that never ends.

mod expected;
mod fed;
mod random;

use fed::{logs, moments, of_the_whole, told, Told};
use mellansko::{Answer, Condition, Incoming, NotRead, Reason, Refusal, Skip, Tail, BLOCK};
use mellansko::{LONGEST_LOG, LONGEST_RECORD};
use random::Random;
use reference::log::{fragment, FIRST, FULL};
use std::cell::Cell;
use std::error::Error;
use std::io::{self, ErrorKind, Read};
use std::rc::Rc;

/// Gives a log in pieces of random lengths, and errors in between. It must not be asked while an
/// answer is certain that has not been handed out, nor after the end.
struct Source<'a> {
    rest: &'a [u8],
    came: usize,
    random: Random,
    /// For each answer, the number of bytes that settle it.
    moments: &'a [usize],
    answered: Rc<Cell<usize>>,
    failed: Rc<Cell<usize>>,
    ended: bool,
}

impl Read for Source<'_> {
    fn read(&mut self, piece: &mut [u8]) -> io::Result<usize> {
        let settled = self.moments.iter().filter(|&&moment| moment <= self.came);
        assert_eq!(self.answered.get(), settled.count(), "at {}", self.came);
        assert!(!self.ended && (1..=BLOCK).contains(&piece.len()));
        match self.random.below(12) {
            0 | 1 => return Err(ErrorKind::Interrupted.into()),
            2 => {
                self.failed.set(self.failed.get() + 1);
                return Err(ErrorKind::WouldBlock.into());
            }
            _ => {}
        }
        let scale = [1, 10, 1_000, BLOCK][self.random.below(4)];
        let most = piece.len().min(self.rest.len());
        let length = most.min(1 + self.random.below(scale));
        // What it does not fill may be written to.
        piece.fill(0xA5);
        piece[..length].copy_from_slice(&self.rest[..length]);
        self.rest = &self.rest[length..];
        self.came += length;
        self.ended = length == 0;
        Ok(length)
    }
}

#[test]
fn in_any_pieces_and_with_errors_in_between() {
    let mut random = Random::new();
    println!("{random}");
    let mut failures = 0;
    for (log, limit) in logs(&mut random) {
        let (expected, moments) = (of_the_whole(&log, limit), moments(&log, limit));
        for lends in [false, true] {
            let (answered, failed) = (Rc::new(Cell::new(0)), Rc::new(Cell::new(0)));
            let source = Source {
                rest: &log,
                came: 0,
                random: Random::new(),
                moments: &moments,
                answered: answered.clone(),
                failed: failed.clone(),
                ended: false,
            };
            let incoming = Incoming::with_limit(source, limit).expect("no refusal");
            let (answers, errors) = all(incoming, lends, &answered);
            assert!(answers == expected, "{} bytes, limit {limit}", log.len());
            assert_eq!(errors, failed.get());
            failures += errors;
        }
    }
    assert!(failures > 30, "only {failures} errors");
}

/// Every answer, and the number of errors before and between them.
fn all(mut incoming: Incoming<Source>, lends: bool, answered: &Cell<usize>) -> (Vec<Told>, usize) {
    let (mut answers, mut errors) = (Vec::new(), 0);
    loop {
        let answer = if lends {
            incoming.advance().map(|answer| answer.map(told))
        } else {
            incoming.next().transpose().map(|answer| answer.map(told))
        };
        match answer {
            Ok(Some(answer)) => answers.push(answer),
            Ok(None) => break,
            Err(NotRead::Io(error)) if error.kind() == ErrorKind::WouldBlock => errors += 1,
            Err(error) => panic!("{error}"),
        }
        answered.set(answers.len());
    }
    for _ in 0..2 {
        assert!(matches!(incoming.advance(), Ok(None)));
        assert!(incoming.next().is_none());
    }
    assert_eq!(incoming.feed().came(), incoming.get_ref().came);
    (answers, errors)
}

/// Once the bytes are too many, no end is answered, whatever comes or does not come after them.
#[test]
fn of_a_log_that_is_too_long() {
    for more in [1, 100_000, u64::MAX - LONGEST_LOG as u64] {
        let source = io::repeat(0).take(LONGEST_LOG as u64 + more);
        let mut incoming = Incoming::with_limit(source, 0).expect("no refusal");
        // A block of zeros is a range in doubt, and all that a log may have are answered for.
        for block in 0..LONGEST_LOG / BLOCK {
            let Ok(Some(Answer::Skip(skip))) = incoming.advance() else {
                panic!("a range in doubt");
            };
            assert_eq!((skip.start, skip.end), (block * BLOCK, (block + 1) * BLOCK));
        }
        let left = incoming.get_ref().limit();
        assert_eq!(left, more);
        for call in 0..3 {
            let Err(NotRead::Refused(refusal)) = incoming.advance() else {
                panic!("an answer after {LONGEST_LOG} bytes");
            };
            let condition = Condition::LogTooLong;
            assert_eq!(
                refusal,
                Refusal {
                    condition,
                    given: 0
                }
            );
            // It is asked once, and then no more.
            let after = incoming.get_ref().limit();
            assert_eq!(left - after, more.min(BLOCK as u64), "call {call}");
        }
        // An iterator has told it by then.
        assert!(incoming.next().is_none());
    }
}

/// A loop that passes over errors has to end as well.
#[test]
fn as_an_iterator_refused_once() {
    let source = io::repeat(0).take(LONGEST_LOG as u64 + 1);
    let mut incoming = Incoming::new(source).skip(LONGEST_LOG / BLOCK);
    assert!(matches!(incoming.next(), Some(Err(NotRead::Refused(_)))));
    assert!(incoming.next().is_none());
    assert!(incoming.next().is_none());
}

#[test]
fn of_a_log_of_the_greatest_length() {
    let source = io::repeat(0).take(LONGEST_LOG as u64);
    let incoming = Incoming::new(source);
    let last = incoming.last().expect("an answer");
    assert_eq!(last.expect("no error"), Answer::End(Tail::Clean));
}

/// A source that gives what it has, and then must not be asked.
struct Once(Vec<u8>);

impl Read for Once {
    fn read(&mut self, piece: &mut [u8]) -> io::Result<usize> {
        assert!(!self.0.is_empty(), "asked while an answer is certain");
        let bytes = std::mem::take(&mut self.0);
        piece[..bytes.len()].copy_from_slice(&bytes);
        Ok(bytes.len())
    }
}

#[test]
fn without_waiting_where_an_answer_is_certain() {
    let log = [fragment(FULL, b"LW10-1"), fragment(FULL, b"LW11")].concat();
    let mut incoming = Incoming::new(Once(log));
    for bytes in [&b"LW10-1"[..], b"LW11"] {
        let Ok(Some(Answer::Record { bytes: given, .. })) = incoming.advance() else {
            panic!("a record");
        };
        assert_eq!(*given, *bytes);
    }
    // The source may have more by now.
    incoming.get_mut().0 = fragment(FULL, b"LW12");
    assert!(matches!(
        incoming.advance(),
        Ok(Some(Answer::Record { .. }))
    ));
    assert!(incoming.into_inner().0.is_empty());
}

/// It is told, and the record after it comes with the same bytes.
#[test]
fn with_an_empty_start() {
    let log = [fragment(FIRST, b""), fragment(FULL, b"LW11")].concat();
    let mut incoming = Incoming::new(Once(log));
    let (start, end, reason) = (0, 7, Reason::EmptyStart);
    let skip = Skip { start, end, reason };
    assert!(matches!(incoming.advance(), Ok(Some(Answer::Skip(given))) if given == skip));
    assert!(matches!(
        incoming.advance(),
        Ok(Some(Answer::Record { .. }))
    ));
}

/// A source that says it gave more than it was asked for: the byte too much would be of no log.
#[test]
#[should_panic(expected = "there was room for 32767 bytes")]
fn from_a_source_that_lies() {
    struct Lies(std::array::IntoIter<usize, 2>);
    impl Read for Lies {
        fn read(&mut self, _: &mut [u8]) -> io::Result<usize> {
            Ok(self.0.next().expect("no third time"))
        }
    }
    let mut incoming = Incoming::new(Lies([1, BLOCK].into_iter()));
    let _ = incoming.advance();
}

#[test]
fn with_errors_as_values() {
    let refusal = Incoming::with_limit(io::empty(), LONGEST_RECORD + 1).expect_err("too high");
    assert_eq!(refusal.condition, Condition::LimitTooHigh);
    let io = || io::Error::new(ErrorKind::BrokenPipe, "the line is down");
    let [line, refused] = [NotRead::from(io()), NotRead::from(refusal)];
    assert_eq!(
        line.to_string(),
        "the log could not be read on: the line is down"
    );
    assert_eq!(
        refused.to_string(),
        "the log was not read on: the limit is above 4194304 bytes"
    );
    let source = |error: &NotRead| error.source().expect("a source").to_string();
    assert_eq!(
        [source(&line), source(&refused)],
        [io().to_string(), refusal.to_string()]
    );
    let [line, refused] = [line, refused].map(io::Error::from);
    assert_eq!(
        (line.kind(), refused.kind()),
        (ErrorKind::BrokenPipe, ErrorKind::InvalidData)
    );
    let inner = refused
        .get_ref()
        .and_then(|error| error.downcast_ref::<Refusal>());
    assert_eq!(inner, Some(&refusal));
}
