//! Every cut of some logs: the records that end at or before it, and then a torn tail exactly where
//! it falls inside a record.

use super::lent::Lent;
use super::{make, Comparison};
use reference::log::{Appended, Next, Tail, BLOCK, HEADER};
use std::ops::Range;

pub fn all(c: &mut Comparison) {
    for _ in 0..8 {
        let (mut log, spans) = log(c, &[]);
        let cuts = 0..log.len() + 1;
        every_cut(c, &mut log, &spans, cuts);
    }
    // Near a block's end; the first record ends near it, or passes it.
    for first in [BLOCK - 60, BLOCK - 14, BLOCK - 13, BLOCK + 100] {
        let (mut log, spans) = log(c, &[first]);
        let cuts = BLOCK - 120..log.len() + 1;
        every_cut(c, &mut log, &spans, cuts);
    }
}

/// A log of a few small records after those of the lengths given, and its records' spans.
fn log(c: &mut Comparison, lengths: &[usize]) -> (Lent, Vec<Range<usize>>) {
    let bytes = c.random.bytes(3 * BLOCK);
    let mut log = Lent::new(&bytes, &mut c.random);
    let mut mark = 0;
    let mut spans = Vec::new();
    for i in 0..lengths.len() + 10 {
        let small = c.random.below(40);
        let length = lengths.get(i).copied().unwrap_or(small);
        let record = make::record(&mut c.random, length);
        let Appended::Mark(end) = c.append(&mut log, mark, &record) else {
            panic!("{}", c.name("no room"));
        };
        let left = BLOCK - mark % BLOCK;
        let trailer = if left < HEADER { left } else { 0 };
        spans.push(mark + trailer..end);
        mark = end;
    }
    log.cut(mark);
    (log, spans)
}

fn every_cut(c: &mut Comparison, log: &mut Lent, spans: &[Range<usize>], cuts: Range<usize>) {
    let mut buffer = c.buffer(2 * BLOCK);
    for cut in cuts {
        log.cut(cut);
        let mut answers = c.read(log, 2 * BLOCK, &mut buffer);
        let torn = spans.iter().find(|span| span.start < cut && cut < span.end);
        let tail = torn.map_or(Tail::Clean, |span| Tail::Torn(span.start));
        let end = answers.pop().map(|(answer, _)| answer);
        assert_eq!(end, Some(Next::End(tail)), "{}", c.name("cut"));
        let read: Vec<_> = answers.iter().map(|(answer, _)| span(answer)).collect();
        let before = spans.iter().filter(|span| span.end <= cut);
        let before: Vec<_> = before.cloned().map(Some).collect();
        assert_eq!(read, before, "{}", c.name("cut"));
    }
}

fn span(answer: &Next) -> Option<Range<usize>> {
    match *answer {
        Next::Record { start, end, .. } => Some(start..end),
        _ => None,
    }
}
