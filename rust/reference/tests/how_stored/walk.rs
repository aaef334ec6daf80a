//! A record's fragments, found by a walk over its span from header to header. The reader has no
//! part in it.

use reference::log::{fragment, Next, Stored, BLOCK, FIRST, FULL, HEADER, LAST, MIDDLE};
use std::ops::Range;

/// A fragment as it stands in a log.
pub struct Fragment {
    pub kind: u8,
    pub place: usize,
    pub length: usize,
}

impl Fragment {
    pub fn end(&self) -> usize {
        self.place + HEADER + self.length
    }
}

/// All that is in a range, by the headers alone: fragments, and nothing else but trailers of zeros.
pub fn fragments(log: &[u8], range: Range<usize>) -> Vec<Fragment> {
    let mut all = Vec::new();
    let mut place = range.start;
    while place < range.end {
        let left = BLOCK - place % BLOCK;
        if left < HEADER {
            let end = range.end.min(place + left);
            let zeros = log[place..end].iter().all(|byte| *byte == 0);
            assert!(zeros, "a dirty trailer at {place}");
            place = end;
            continue;
        }
        let [.., low, high, kind] = log[place..place + HEADER] else {
            panic!("seven bytes");
        };
        let length = usize::from(u16::from_le_bytes([low, high]));
        let found = Fragment {
            kind,
            place,
            length,
        };
        place = found.end();
        all.push(found);
    }
    assert_eq!(place, range.end, "a fragment goes on after {range:?}");
    all
}

/// What was met of records that were held to the walk.
#[derive(Debug, Default)]
pub struct Met {
    pub one: usize,
    pub two: usize,
    pub more: usize,
    /// With a trailer inside.
    pub trailers: usize,
    /// The last fragment has no data.
    pub empty_last: usize,
    /// Right after a record that broke off or was over the limit.
    pub after_broken: usize,
}

impl Met {
    /// Inputs without them would show nothing: so many of each at least.
    pub fn at_least(&self, each: usize) {
        println!("{self:?}");
        let all = [self.one, self.two, self.more, self.trailers];
        let all = all.into_iter().chain([self.empty_last, self.after_broken]);
        assert!(all.min() >= Some(each), "{self:?}");
    }

    /// All records of a reading. They are counted, and held to the walk.
    pub fn hold(&mut self, log: &[u8], answers: &[Next]) {
        let mut broken = false;
        for answer in answers {
            if let Next::Record { .. } = answer {
                let walked = hold(log, answer);
                self.count(&walked);
                self.after_broken += usize::from(broken);
            }
            broken = matches!(
                answer,
                Next::Skip {
                    reason: 4 | 7 | 8,
                    ..
                }
            );
        }
    }

    fn count(&mut self, walked: &[Fragment]) {
        match walked.len() {
            1 => self.one += 1,
            2 => self.two += 1,
            _ => self.more += 1,
        }
        let apart = |pair: &[Fragment]| pair[0].end() < pair[1].place;
        self.trailers += usize::from(walked.windows(2).any(apart));
        let last = walked.last().expect("one at least");
        self.empty_last += usize::from(last.length == 0);
    }
}

/// Holds a record to §16.2 and §16.3, as far as they are the same for both readers. Gives its
/// fragments.
pub fn hold(log: &[u8], answer: &Next) -> Vec<Fragment> {
    let Next::Record {
        start,
        end,
        length,
        fragments: count,
        last_header,
        ..
    } = *answer
    else {
        panic!("{answer:?} is no record");
    };
    let walked = fragments(log, start..end);
    for found in &walked {
        let data = &log[found.place + HEADER..found.end()];
        let sound = fragment(found.kind, data);
        assert!(log[found.place..found.end()] == sound, "{answer:?}");
    }
    let kinds: Vec<u8> = walked.iter().map(|found| found.kind).collect();
    match kinds[..] {
        [FULL] => assert_eq!(last_header, start, "{answer:?}"),
        [FIRST, ref middles @ .., LAST] => {
            let all = middles.iter().all(|kind| *kind == MIDDLE);
            assert!(all && last_header > start, "{answer:?}, {kinds:?}");
        }
        _ => panic!("{answer:?} of {kinds:?}"),
    }
    assert_eq!(count, walked.len(), "{answer:?}");
    assert_eq!(
        walked.iter().map(|found| found.length).sum::<usize>(),
        length
    );
    // Where the last header is said to be, there is one, and what it begins ends the record.
    let last = walked.last().map(|last| (last.place, last.end()));
    assert_eq!(last, Some((last_header, end)), "{answer:?}");
    walked
}

/// What §16.3 says of a whole record, which the fed reader never calls one (§16.7).
pub fn one_exactly_if_whole(answer: &Next) {
    if let Next::Record {
        stored, fragments, ..
    } = *answer
    {
        match stored {
            Stored::Whole(_) => assert_eq!(fragments, 1, "{answer:?}"),
            Stored::Gathered => assert!(fragments >= 2, "{answer:?}"),
        }
    }
}
