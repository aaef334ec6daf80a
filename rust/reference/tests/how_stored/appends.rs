//! What appends make, worked out from span and length (§16.5): in numbers alone for every remainder
//! of a mark, and read back in bytes.

use crate::random::Random;
use crate::walk;
use reference::log::{append, next, stored_by, Appended, Next};
use reference::log::{BLOCK, HEADER, LONGEST_LOG, LONGEST_RECORD};
use std::ops::Range;

/// An append as §3.2 and §3.3 lay it out, without its bytes: where each header stands.
pub struct Layout {
    pub span: Range<usize>,
    pub length: usize,
    pub headers: Vec<usize>,
}

pub fn layout(mark: usize, length: usize) -> Layout {
    let left = |place: usize| BLOCK - place % BLOCK;
    let mut place = match left(mark) {
        few if few < HEADER => mark + few,
        _ => mark,
    };
    let (start, mut rest, mut headers) = (place, length, Vec::new());
    loop {
        headers.push(place);
        let data = rest.min(left(place) - HEADER);
        place += HEADER + data;
        rest -= data;
        if rest == 0 {
            return Layout {
                span: start..place,
                length,
                headers,
            };
        }
    }
}

impl Layout {
    /// Its fragments, and where the last one's header is.
    pub fn how_stored(&self) -> (usize, usize) {
        let last = self.headers.last().expect("one at least");
        (self.headers.len(), *last)
    }

    /// All that §16.5 says of it.
    fn hold(&self, mark: usize) {
        let Range { start, end } = self.span;
        let (fragments, last_header) = self.how_stored();
        let case = format!("{} bytes at {mark}", self.length);
        assert_eq!(
            stored_by(start, end, self.length),
            (fragments, last_header),
            "{case}"
        );
        assert_eq!((end - start - self.length) % 7, 0, "{case}");
        assert_eq!(by_the_size(mark, self.length), fragments, "{case}");
        assert_eq!(blocks(&self.span), fragments, "{case}");
    }
}

/// 1 if n ≤ a, and otherwise 1 + q, as §3.7 has these.
fn by_the_size(mark: usize, n: usize) -> usize {
    let r = 32_768 - mark % 32_768;
    let a = if r < 7 { 32_761 } else { r - 7 };
    match n <= a {
        true => 1,
        false => 1 + (n - a).div_ceil(32_761),
    }
}

/// How many blocks a span has a byte in.
fn blocks(span: &Range<usize>) -> usize {
    let all = 0..=span.end / BLOCK;
    all.filter(|block| span.start < (block + 1) * BLOCK && block * BLOCK < span.end)
        .count()
}

/// Holds a record that an append stored to what is worked out from its span and its length.
pub fn as_appended(answer: &Next) {
    let Next::Record {
        start,
        end,
        length,
        fragments,
        last_header,
        ..
    } = *answer
    else {
        panic!("{answer:?} is no record");
    };
    let how = (fragments, last_header);
    assert_eq!(how, stored_by(start, end, length), "{answer:?}");
}

/// Lengths at which something may change for an append at a mark: none, the room that is left, that
/// and so many blocks' data, and whole blocks.
fn lengths(mark: usize, most_blocks: usize) -> Vec<usize> {
    let left = BLOCK - mark % BLOCK;
    let room = left.checked_sub(HEADER).unwrap_or(BLOCK - HEADER);
    let mut edges = vec![0, 7, left];
    for blocks in 0..=most_blocks {
        edges.push(room + blocks * (BLOCK - HEADER));
        edges.push(blocks * (BLOCK - HEADER));
        edges.push(blocks * BLOCK);
    }
    let near = |edge: &usize| edge.saturating_sub(2)..=edge + 2;
    let mut lengths: Vec<usize> = edges.iter().flat_map(near).collect();
    lengths.sort_unstable();
    lengths.dedup();
    lengths
}

/// For every remainder of a mark, in the first block and in a later one.
#[test]
fn in_numbers() {
    let mut several = 0;
    for mark in (0..BLOCK).chain(5 * BLOCK..6 * BLOCK) {
        for length in lengths(mark, 3) {
            let layout = layout(mark, length);
            layout.hold(mark);
            several += usize::from(layout.headers.len() > 2);
        }
    }
    assert!(several > 100_000, "{several}");
}

/// Every length up to more than a block, where few bytes are left.
#[test]
fn in_numbers_of_every_length() {
    for mark in BLOCK - 9..=BLOCK {
        for length in 0..=BLOCK + 20 {
            layout(mark, length).hold(mark);
        }
    }
}

/// Appends a record, and calls at each place from the mark up to the span's start (§7.7).
fn read_back(log: &mut [u8], mark: usize, record: &[u8], buffer: &mut [u8]) {
    let layout = layout(mark, record.len());
    let Range { start, end } = layout.span;
    assert_eq!(append(log, mark, record), Appended::Mark(end));
    for lent in [end, log.len()] {
        for place in mark..=start {
            let answer = next(&log[..lent], place, record.len(), buffer);
            let Next::Record {
                start: from,
                end: to,
                length,
                fragments,
                last_header,
                ..
            } = answer
            else {
                panic!("{answer:?} for {} bytes at {mark}", record.len());
            };
            assert_eq!((from, to, length), (start, end, record.len()));
            assert_eq!((fragments, last_header), layout.how_stored());
            as_appended(&answer);
            walk::one_exactly_if_whole(&answer);
            walk::hold(log, &answer);
        }
    }
}

/// At every place near a block's end and at some others, over whatever the log holds.
#[test]
fn read_back_at_many_marks() {
    let random = &mut Random::new();
    println!("{random}");
    let mut log = random.bytes(6 * BLOCK);
    let record = random.bytes(4 * BLOCK);
    let mut buffer = vec![0; record.len()];
    for mark in (BLOCK - 16..=BLOCK + 8).chain([0, 1, 100, BLOCK / 2]) {
        for length in lengths(mark, 2) {
            read_back(&mut log, mark, &record[..length], &mut buffer);
        }
    }
}

#[test]
fn read_back_of_any_length_at_any_mark() {
    let random = &mut Random::new();
    println!("{random}");
    let mut log = random.bytes(7 * BLOCK);
    let record = random.bytes(4 * BLOCK);
    let mut buffer = vec![0; record.len()];
    for _ in 0..500 {
        let mark = random.below(2 * BLOCK);
        let scale = 1 << random.below(18);
        let length = random.below(scale).min(record.len());
        read_back(&mut log, mark, &record[..length], &mut buffer);
    }
}

/// The longest record, of 129 fragments and of 130.
#[test]
fn read_back_of_the_longest_record() {
    let mut log = vec![0xA5; LONGEST_RECORD + 3 * BLOCK];
    let record = vec![7; LONGEST_RECORD];
    let mut buffer = vec![0; LONGEST_RECORD];
    for (mark, fragments) in [(0, 129), (BLOCK - 7, 130), (BLOCK - 6, 129), (40_000, 129)] {
        read_back(&mut log, mark, &record, &mut buffer);
        assert_eq!(layout(mark, LONGEST_RECORD).headers.len(), fragments);
    }
}

/// At the end of the longest log there may be, where places are highest.
#[test]
fn read_back_at_the_highest_places() {
    // Of zeros, since those take no memory until they are touched.
    let mut log = vec![0; LONGEST_LOG];
    let record = vec![7; 2 * BLOCK];
    let mut buffer = vec![0; record.len()];
    for (left, length) in [(7, 0), (100, 93), (40_000, 39_986), (BLOCK + 7, BLOCK - 7)] {
        let mark = LONGEST_LOG - left;
        read_back(&mut log, mark, &record[..length], &mut buffer);
        assert_eq!(layout(mark, length).span.end, LONGEST_LOG);
    }
}
