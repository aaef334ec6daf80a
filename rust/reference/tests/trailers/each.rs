//! A trailer of each length with each of its bytes dirty in turn, with nothing open, a record open
//! and an empty record open: all of the log, cut at every place of the trailer, called at every
//! place of it, and mended.

use crate::answers::{record, skip};
use reference::log::{
    fragment, next, Next, Stored, Tail, BLOCK, FIRST, FULL, HEADER, LAST, MIDDLE,
};
use reference::mend::{mend, Mended};

/// What is open where the trailer starts.
#[derive(Clone, Copy, Debug, PartialEq)]
enum Open {
    Nothing,
    Record,
    /// A FIRST without data.
    Empty,
    /// The same, and a MIDDLE without data.
    EmptyMiddle,
}

const OPENS: [Open; 4] = [Open::Nothing, Open::Record, Open::Empty, Open::EmptyMiddle];

/// A log whose first block ends in a trailer. Its second block has a fragment of three bytes, which
/// goes with what is open.
struct Log {
    open: Open,
    /// Where the trailer starts.
    trailer: usize,
    bytes: Vec<u8>,
}

impl Log {
    fn new(open: Open, trailer: &[u8]) -> Log {
        let empty = match open {
            Open::Nothing | Open::Record => Vec::new(),
            Open::Empty => fragment(FIRST, b""),
            Open::EmptyMiddle => [fragment(FIRST, b""), fragment(MIDDLE, b"")].concat(),
        };
        let kind = if open == Open::Record { FIRST } else { FULL };
        let data = BLOCK - HEADER - empty.len() - trailer.len();
        let before = [fragment(kind, &vec![7; data]), empty].concat();
        let after = if open == Open::Nothing { FULL } else { LAST };
        Log {
            open,
            trailer: before.len(),
            bytes: [&before, trailer, &fragment(after, b"end")].concat(),
        }
    }

    /// Where the open record starts, if one is open.
    fn start(&self) -> Option<usize> {
        match self.open {
            Open::Nothing => None,
            Open::Record => Some(0),
            Open::Empty => Some(self.trailer - HEADER),
            Open::EmptyMiddle => Some(self.trailer - 2 * HEADER),
        }
    }

    /// The record of a FULL that comes before the trailer or before the empty FIRST.
    fn before(&self) -> Vec<Next> {
        match self.start().unwrap_or(self.trailer) {
            0 => Vec::new(),
            end => vec![record(0, end, end - HEADER, Stored::Whole(HEADER), (1, 0))],
        }
    }

    /// The answers of the log cut to a length in the trailer or right at its ends, or of all of it;
    /// the trailer's byte at a place is the first that is dirty.
    fn due(&self, cut: usize, dirty: usize) -> Vec<Next> {
        let mut due = self.before();
        if cut <= dirty {
            let torn = self.start().map(Tail::Torn);
            due.push(Next::End(torn.unwrap_or(Tail::Clean)));
            return due;
        }
        due.extend(self.start().map(|start| skip(start, self.trailer, 4)));
        due.push(skip(self.trailer, cut.min(BLOCK), 9));
        if cut > BLOCK {
            due.push(self.after());
        }
        due.push(Next::End(Tail::Clean));
        due
    }

    /// What the second block's fragment is with nothing open.
    fn after(&self) -> Next {
        let end = BLOCK + HEADER + 3;
        match self.open {
            Open::Nothing => record(BLOCK, end, 3, Stored::Whole(BLOCK + HEADER), (1, BLOCK)),
            _ => skip(BLOCK, end, 5),
        }
    }
}

/// At a limit that none of these records is over.
fn read(log: &[u8]) -> Vec<Next> {
    let mut buffer = vec![0; log.len()];
    let mut answers = Vec::new();
    let mut place = 0;
    loop {
        let answer = next(log, place, log.len(), &mut buffer);
        place = answer.place_after(log);
        answers.push(answer);
        if matches!(answer, Next::End(_) | Next::Refused { .. }) {
            return answers;
        }
    }
}

/// Every log with one dirty byte, and the place of that byte.
fn each(mut with: impl FnMut(&Log, usize)) {
    for open in OPENS {
        for bytes in 1..HEADER {
            for dirty in 0..bytes {
                for value in [1, 0x80, 0xFF] {
                    let mut trailer = vec![0; bytes];
                    trailer[dirty] = value;
                    let log = Log::new(open, &trailer);
                    with(&log, log.trailer + dirty);
                }
            }
        }
    }
}

#[test]
fn whole_and_cut() {
    each(|log, dirty| {
        assert_eq!(read(&log.bytes), log.due(log.bytes.len(), dirty));
        for cut in log.trailer..=BLOCK {
            let case = format!("{:?}, dirty at {dirty}, cut to {cut}", log.open);
            assert_eq!(read(&log.bytes[..cut]), log.due(cut, dirty), "{case}");
        }
    });
}

/// All bytes from one on are dirty: it is the first of them that counts.
#[test]
fn with_more_than_one_dirty_byte() {
    for open in OPENS {
        for clean in 0..HEADER - 1 {
            let mut trailer = [0xA5; HEADER - 1];
            trailer[..clean].fill(0);
            let log = Log::new(open, &trailer);
            let dirty = log.trailer + clean;
            for cut in (log.trailer..=BLOCK).chain([log.bytes.len()]) {
                assert_eq!(read(&log.bytes[..cut]), log.due(cut, dirty), "{clean}");
            }
        }
    }
}

/// A trailer of zeros is passed, and what is open stays open.
#[test]
fn of_zeros() {
    for open in OPENS {
        for bytes in 1..HEADER {
            let log = Log::new(open, &vec![0; bytes]);
            for cut in log.trailer..=BLOCK {
                assert_eq!(read(&log.bytes[..cut]), log.due(cut, BLOCK), "{cut}");
            }
            let mut due = log.before();
            let end = log.bytes.len();
            due.push(match log.start() {
                None => log.after(),
                Some(start) => {
                    let empty = open != Open::Record;
                    let so_far = if empty { 0 } else { log.trailer - HEADER };
                    // The trailer is no fragment (§16.2).
                    let before = if open == Open::EmptyMiddle { 2 } else { 1 };
                    let how = (before + 1, BLOCK);
                    record(start, end, so_far + 3, Stored::Gathered, how)
                }
            });
            due.push(Next::End(Tail::Clean));
            assert_eq!(read(&log.bytes), due);
        }
    }
}

/// A call judges what comes from its place on, whatever comes before it (§14.2).
#[test]
fn called_at_each_place() {
    each(|log, dirty| {
        for place in log.trailer..BLOCK {
            let answer = next(&log.bytes, place, 3, &mut [0; 3]);
            let due = match place <= dirty {
                true => skip(place, BLOCK, 9),
                false => log.after(),
            };
            assert_eq!(answer, due, "at {place}, dirty at {dirty}");
            let answer = next(&log.bytes[..dirty + 1], place.min(dirty), 3, &mut [0; 3]);
            assert_eq!(answer, skip(place.min(dirty), dirty + 1, 9));
        }
    });
}

/// The trailer's bytes count as skipped, and so do those of the record that it interrupts (§14.5).
#[test]
fn mended() {
    each(|log, dirty| {
        let mut fresh = vec![0xA5; log.bytes.len()];
        for cut in (dirty..=BLOCK).chain([log.bytes.len()]) {
            let bad = &log.bytes[..cut];
            let answer = mend(bad, &mut fresh[..cut], BLOCK, &mut [0; BLOCK]);
            let judged = cut.min(BLOCK) - log.trailer;
            let interrupted = log.start().map_or(0, |start| log.trailer - start);
            let orphan = match log.open {
                Open::Nothing => 0,
                _ => cut.saturating_sub(BLOCK),
            };
            let skipped = match cut > dirty {
                true => interrupted + judged + orphan,
                false => 0,
            };
            let last = match (log.open, cut > BLOCK) {
                (Open::Nothing, true) => cut,
                _ => log.start().unwrap_or(log.trailer),
            };
            let length = last;
            assert_eq!(answer, Mended::Log { length, skipped }, "cut to {cut}");
        }
        // As the writer leaves it.
        if log.open == Open::Nothing {
            let clean = Log::new(log.open, &vec![0; BLOCK - log.trailer]);
            assert!(fresh == clean.bytes);
        }
    });
}
