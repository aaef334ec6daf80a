//! Lists of appends, refused ones among them, and the records that come back.

use super::lent::Lent;
use super::{make, Comparison};
use reference::log::{Appended, Next, Tail};

pub fn all(c: &mut Comparison) {
    for _ in 0..300 {
        let bits = 6 + c.random.below(15);
        let length = c.random.below(1 << bits);
        let bytes = make::record(&mut c.random, length);
        let mut log = Lent::new(&bytes, &mut c.random);
        let (mark, records) = list(c, &mut log, bits);
        anywhere(c, &mut log.clone(), bits);
        log.cut(mark);
        comes_back(c, &log, &records);
    }
}

/// Appends in turn; gives the last mark and the accepted records.
fn list(c: &mut Comparison, log: &mut Lent, bits: usize) -> (usize, Vec<Vec<u8>>) {
    let mut mark = 0;
    let mut records = Vec::new();
    for _ in 0..30 {
        let length = make::record_length(&mut c.random, mark, bits.min(18));
        let record = make::record(&mut c.random, length);
        if c.random.below(10) == 0 {
            let beyond = log.len() + 1 + make::any_length(&mut c.random, 30);
            c.append(log, beyond, &record);
        }
        if let Appended::Mark(end) = c.append(log, mark, &record) {
            mark = end;
            records.push(record);
        }
    }
    (mark, records)
}

/// Appends at any marks, over whatever is there.
fn anywhere(c: &mut Comparison, log: &mut Lent, bits: usize) {
    for _ in 0..5 {
        let mark = c.random.below(log.len() + 2);
        let length = make::record_length(&mut c.random, mark, bits.min(18));
        let record = make::record(&mut c.random, length);
        c.append(log, mark, &record);
    }
}

/// With a limit that none is above, "exactly those records in order, with nothing skipped and a
/// clean end"; then with a lower one.
fn comes_back(c: &mut Comparison, log: &Lent, records: &[Vec<u8>]) {
    let longest = records.iter().map(Vec::len).max().unwrap_or(0);
    let limit = pick_limit(c, longest);
    let spare = c.random.below(20);
    let mut buffer = c.buffer(limit + spare);
    let mut answers = c.read(log, limit, &mut buffer);
    let end = answers.pop().map(|(answer, _)| answer);
    assert_eq!(end, Some(Next::End(Tail::Clean)), "{}", c.name("end"));
    let handed_out = |answer: &Next| matches!(answer, Next::Record { .. });
    let all = answers.iter().all(|(answer, _)| handed_out(answer));
    let same = answers.iter().map(|(_, bytes)| bytes).eq(records);
    assert!(all && same, "{}", c.name("records as written"));
    let lower = c.random.below(longest + 1);
    c.read(log, lower, &mut buffer);
}

fn pick_limit(c: &mut Comparison, longest: usize) -> usize {
    let high = make::long_or_longest(&mut c.random).max(longest);
    let any = longest + c.random.below(high - longest + 1);
    make::pick(&mut c.random, &[longest, any, high])
}
