//! Logs that a list of appends made (§12.7): whole, cut, and with a block changed.

use crate::make::{pick, record, record_length, LONG};
use crate::promises::hold;
use crate::random::Random;
use crate::reading::{added, reading};
use reference::log::{append, Appended, BLOCK, HEADER, LONGEST_RECORD};
use std::ops::Range;

struct Written {
    log: Vec<u8>,
    records: Vec<Vec<u8>>,
    spans: Vec<Range<usize>>,
}

fn written(random: &mut Random, records: usize) -> Written {
    let mut all = Written {
        log: Vec::new(),
        records: Vec::new(),
        spans: Vec::new(),
    };
    for _ in 0..records {
        let mark = all.log.len();
        let length = record_length(random, mark, 14).min(LONGEST_RECORD);
        let record = record(random, length);
        let left = BLOCK - mark % BLOCK;
        let trailer = if left < HEADER { left } else { 0 };
        all.log.resize(mark + added(mark, length), 0);
        let end = all.log.len();
        assert_eq!(append(&mut all.log, mark, &record), Appended::Mark(end));
        all.records.push(record);
        all.spans.push(mark + trailer..end);
    }
    all
}

impl Written {
    /// One that no record exceeds: the longest one's length, or one that is higher. The highest is
    /// rare, since it takes a buffer of as many bytes.
    fn limit(&self, random: &mut Random) -> usize {
        let longest = self.records.iter().map(Vec::len).max().unwrap_or(0);
        let higher = (longest + random.below(LONG)).min(LONGEST_RECORD);
        match random.below(64) {
            0 => LONGEST_RECORD,
            _ => pick(random, &[longest, higher]),
        }
    }

    /// Cuts at and next to the ends of spans, and anywhere.
    fn cuts(&self, random: &mut Random) -> Vec<usize> {
        let span = pick(random, &self.spans);
        let any = random.below(self.log.len() + 1);
        let near = [span.start, span.start + 1, span.end - 1, span.end];
        let cuts = near.into_iter().chain([any, span.end + 3]);
        cuts.filter(|cut| *cut <= self.log.len()).collect()
    }
}

#[test]
fn whole() {
    let random = &mut Random::new();
    println!("{random}");
    for records in (0..40).map(|round| round % 8) {
        let written = written(random, records);
        let limit = written.limit(random);
        assert!(hold(random, &written.log, limit) == (written.log, 0));
    }
}

#[test]
fn cut() {
    let random = &mut Random::new();
    println!("{random}");
    for _ in 0..40 {
        let records = 1 + random.below(4);
        let written = written(random, records);
        for cut in written.cuts(random) {
            let limit = written.limit(random);
            let (log, skipped) = hold(random, &written.log[..cut], limit);
            let mut kept = written.spans.iter().filter(|span| span.end <= cut);
            let end = kept.next_back().map_or(0, |span| span.end);
            assert!(log == written.log[..end], "cut at {cut}");
            assert_eq!(skipped, 0);
        }
    }
}

/// Any bytes of a block replaced: by random ones, by zeros, or a few of them. The log is whole, or
/// it is cut before.
#[test]
fn with_a_block_changed() {
    let random = &mut Random::new();
    println!("{random}");
    for round in 0..120 {
        let records = 1 + random.below(9);
        let mut written = written(random, records);
        if round % 3 == 0 {
            let cut = 1 + random.below(written.log.len());
            written.log.truncate(cut);
            written.spans.retain(|span| span.end <= cut);
            written.records.truncate(written.spans.len());
        }
        let place = random.below(written.log.len());
        let start = place / BLOCK * BLOCK;
        let block = start..(start + BLOCK).min(written.log.len());
        let mut bad = written.log.clone();
        match random.below(4) {
            0 => bad[block.clone()].fill(0),
            1 => bad[block.clone()].copy_from_slice(&random.bytes(block.len())),
            _ => bad[place] ^= 1 << random.below(8),
        }
        keeps(random, &written, &bad, &block);
    }
}

/// The mended log has the records of earlier blocks alone, then some that were read with a byte in
/// the block, and then those of later blocks alone.
fn keeps(random: &mut Random, written: &Written, bad: &[u8], block: &Range<usize>) {
    let limit = written.limit(random);
    let (log, _) = hold(random, bad, limit);
    let buffer = vec![0; limit];
    let records = reading(&log, limit, &buffer).records;
    let spans = written.spans.iter();
    let before = spans.clone().filter(|span| span.end <= block.start).count();
    let after = spans.filter(|span| span.start >= block.end).count();
    assert!(before + after <= records.len());
    assert!(records[..before] == written.records[..before]);
    let last = written.records.len() - after;
    assert!(records[records.len() - after..] == written.records[last..]);
    let read = reading(bad, limit, &buffer).spans;
    for span in &read[before..read.len() - after] {
        assert!(span.start < block.end && span.end > block.start, "{span:?}");
    }
}
