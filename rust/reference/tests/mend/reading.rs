//! What a reading of a whole log says (§4.12), and the sizes of appends by their formula (§3.7).

use reference::log::{next, record_bytes, Next, Tail, BLOCK};
use std::ops::Range;

pub struct Reading {
    pub records: Vec<Vec<u8>>,
    /// The records' spans, in the same order.
    pub spans: Vec<Range<usize>>,
    /// How each was stored: its fragments, and where the last one's header is.
    pub stored: Vec<(usize, usize)>,
    /// The skipped ranges, each with its reason.
    pub skipped: Vec<(Range<usize>, u8)>,
    pub tail: Tail,
    /// The buffer as the reading leaves it.
    pub buffer: Vec<u8>,
}

/// With a limit and a buffer that are not refused.
pub fn reading(log: &[u8], limit: usize, buffer: &[u8]) -> Reading {
    let mut read = Reading {
        records: Vec::new(),
        spans: Vec::new(),
        stored: Vec::new(),
        skipped: Vec::new(),
        tail: Tail::Clean,
        buffer: buffer.to_vec(),
    };
    let mut place = 0;
    loop {
        let answer = next(log, place, limit, &mut read.buffer);
        match answer {
            Next::Record {
                start,
                end,
                fragments,
                last_header,
                ..
            } => {
                let record = record_bytes(log, &read.buffer, &answer).to_vec();
                read.records.push(record);
                read.spans.push(start..end);
                read.stored.push((fragments, last_header));
                place = end;
            }
            Next::Skip { start, end, reason } => {
                read.skipped.push((start..end, reason));
                place = end;
            }
            Next::End(tail) => {
                read.tail = tail;
                return read;
            }
            Next::Refused { .. } => panic!("{answer:?} of a reading"),
        }
    }
}

impl Reading {
    /// The marks of the records' appends, one after the other from mark 0 on.
    pub fn marks(&self) -> Vec<usize> {
        let lengths = self.records.iter().map(Vec::len);
        let marks = lengths.scan(0, |mark, length| {
            *mark += added(*mark, length);
            Some(*mark)
        });
        marks.collect()
    }

    /// Those of all ranges but of empty starts (§12.2).
    pub fn bytes_skipped(&self) -> usize {
        let lost = self.skipped.iter().filter(|(_, reason)| *reason != 8);
        lost.map(|(range, _)| range.len()).sum()
    }
}

/// How many bytes an append of n bytes adds at a mark: the formula of §3.7, as the page has it.
pub fn added(mark: usize, n: usize) -> usize {
    let r = BLOCK - mark % BLOCK;
    let (p, a) = if r < 7 { (r, 32_761) } else { (0, r - 7) };
    if n <= a {
        return p + 7 + n;
    }
    let q = (n - a).div_ceil(32_761);
    p + n + 7 * (1 + q)
}
