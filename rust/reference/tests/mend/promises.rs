//! What §12.1 to §12.6 say of every log.

use crate::random::Random;
use crate::reading::{reading, Reading};
use reference::log::{append, stored_by, Appended, Tail};
use reference::mend::{mend, Mended};

/// A call, and all that was lent to it afterwards.
struct Called {
    answer: Mended,
    fresh: Vec<u8>,
    buffer: Vec<u8>,
}

fn call(bad: &[u8], fresh: &[u8], limit: usize, buffer: &[u8]) -> Called {
    let (mut fresh, mut buffer) = (fresh.to_vec(), buffer.to_vec());
    let answer = mend(bad, &mut fresh, limit, &mut buffer);
    Called {
        answer,
        fresh,
        buffer,
    }
}

/// Mends a log at a limit, into slices of several lengths, and holds the calls to what the page
/// says. Gives the mended log, and how many bytes were skipped.
pub fn hold(random: &mut Random, bad: &[u8], limit: usize) -> (Vec<u8>, usize) {
    let spare = random.below(3);
    let buffer = random.bytes(limit + spare);
    let read = reading(bad, limit, &buffer);
    never_longer(&read, bad);
    let log = appended(&read);
    let case = Case {
        bad,
        limit,
        buffer: &buffer,
        read: &read,
        log: &log,
    };
    let spare = random.below(40);
    for length in [log.len(), log.len() + spare, bad.len()] {
        case.mends(&random.bytes(length));
    }
    if !log.is_empty() {
        for length in [0, random.below(log.len()), log.len() - 1] {
            case.does_not_fit(&random.bytes(length));
        }
    }
    case.reads_and_mends_again(random);
    (log, read.bytes_skipped())
}

/// §12.4, of the log and of each record: none ends later than it did.
fn never_longer(read: &Reading, bad: &[u8]) {
    for (mark, span) in read.marks().iter().zip(&read.spans) {
        assert!(*mark <= span.end, "{mark} for a record that is {span:?}");
        assert!(*mark <= bad.len());
    }
}

/// The log of the records' appends, from mark 0 on, each of the size that is worked out for it.
fn appended(read: &Reading) -> Vec<u8> {
    let marks = read.marks();
    let mut log = vec![0xA5; marks.last().copied().unwrap_or(0)];
    let mut mark = 0;
    for (record, new) in read.records.iter().zip(marks) {
        assert_eq!(append(&mut log, mark, record), Appended::Mark(new));
        mark = new;
    }
    log
}

/// A log to be mended, and what is to come of it.
struct Case<'a> {
    bad: &'a [u8],
    limit: usize,
    buffer: &'a [u8],
    read: &'a Reading,
    log: &'a [u8],
}

impl Case<'_> {
    /// §12.1 to §12.3: the records' appends, the two numbers, and what is left as it was.
    fn mends(&self, fresh: &[u8]) {
        let called = call(self.bad, fresh, self.limit, self.buffer);
        let length = self.log.len();
        let skipped = self.read.bytes_skipped();
        assert_eq!(called.answer, Mended::Log { length, skipped });
        assert!(called.fresh[..length] == *self.log, "the mended log");
        assert!(called.fresh[length..] == fresh[length..], "the rest of it");
        assert!(called.buffer == self.read.buffer, "the buffer");
    }

    /// Number 4 of §12.5, for a slice that is too short.
    fn does_not_fit(&self, fresh: &[u8]) {
        let called = call(self.bad, fresh, self.limit, self.buffer);
        let (number, given) = (4, 0);
        assert_eq!(called.answer, Mended::Refused { number, given });
        assert!(called.fresh == fresh, "the fresh slice");
        assert!(called.buffer == self.buffer, "the buffer");
    }

    /// *Mended* and *mended again* of §12.6. The records are stored as appends store them (§16.6).
    fn reads_and_mends_again(&self, random: &mut Random) {
        let read = reading(self.log, self.limit, self.buffer);
        assert!(read.records == self.read.records, "the same records");
        let lengths = read.records.iter().map(Vec::len);
        let by_their_spans = read
            .spans
            .iter()
            .zip(lengths)
            .map(|(span, length)| stored_by(span.start, span.end, length));
        assert!(read.stored.iter().copied().eq(by_their_spans), "§16.5");
        assert_eq!((read.tail, read.skipped), (Tail::Clean, vec![]));
        let spare = random.below(9);
        let fresh = random.bytes(self.log.len() + spare);
        let called = call(self.log, &fresh, self.limit, self.buffer);
        let (length, skipped) = (self.log.len(), 0);
        assert_eq!(called.answer, Mended::Log { length, skipped });
        assert!(called.fresh[..length] == *self.log, "the same bytes");
    }
}
