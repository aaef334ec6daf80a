//! The typed calls and the reading, beside the reference: every answer field by field, and the
//! bytes that it leads to.

mod expected;
mod mended;
mod random;

use expected::{appended, next_of, read as answered, refused};
use mellansko::{Answer, Condition, Mended, Next, Reading, Refusal, Stored};
use random::Random;
use reference::log::{self, fragment, BLOCK, LONGEST_LOG, LONGEST_RECORD};
use std::collections::BTreeSet;
use std::ptr;

#[test]
fn on_logs_whole_cut_and_changed() {
    let mut random = Random::new();
    println!("{random}");
    let mut reasons = BTreeSet::new();
    // Nothing; empty records; across blocks; exactly 7 bytes left in a block, for an empty record
    // and for another; trailers of 6 bytes and of 1.
    let shapes: [&[usize]; 8] = [
        &[],
        &[0, 0, 0],
        &[5, 40_000, 0, 9],
        &[100_000, 20, 32_761],
        &[BLOCK - 14, 0, 3],
        &[BLOCK - 14, 1, 3],
        &[BLOCK - 13, 0, 3],
        &[BLOCK - 8, 40_000],
    ];
    let limits = [0, 4, 5, 39_999, 40_000, 100_000];
    for shape in shapes {
        let mut log = written(&mut random, shape);
        for limit in limits.into_iter().chain([LONGEST_RECORD]) {
            read(&log, limit, &mut reasons);
            mend(&log, limit);
        }
        for place in places(log.len(), &mut random) {
            let limit = limits[random.below(limits.len())];
            read(&log[..place], limit, &mut reasons);
            mend(&log[..place], limit);
            if place < log.len() {
                log[place] ^= 0xFF;
                read(&log, limit, &mut reasons);
                mend(&log, limit);
                log[place] ^= 0xFF;
            }
        }
    }
    three_fragments(&mut random, &mut reasons);
    assert!(reasons.into_iter().eq(1..=9), "not every reason came up");
}

/// Every three fragments in a row, of the four types and of others. One of type 0 is blank if empty.
/// All are empty, or all but the last, or each has any length.
fn three_fragments(random: &mut Random, reasons: &mut BTreeSet<u8>) {
    let kinds = [0, 1, 2, 3, 4, 5, 255];
    for i in 0..kinds.len().pow(3) {
        let three = [i / 49, i / 7 % 7, i % 7].map(|kind| kinds[kind]);
        let any = [(); 3].map(|()| random.below(3));
        for lengths in [[0, 0, 0], [0, 0, 2], any] {
            let pieces = three.iter().zip(lengths);
            let pieces = pieces.map(|(&kind, length)| fragment(kind, &random.bytes(length)));
            let log = pieces.collect::<Vec<_>>().concat();
            for limit in [0, 2, 6] {
                read(&log, limit, reasons);
                mend(&log, limit);
            }
        }
    }
}

/// A log of records of these lengths, which both writers write.
fn written(random: &mut Random, lengths: &[usize]) -> Vec<u8> {
    let mut ours = vec![0xA5; lengths.iter().sum::<usize>() + 200];
    let mut theirs = ours.clone();
    let mut mark = 0;
    for &length in lengths {
        let record = random.bytes(length);
        let expected = log::append(&mut theirs, mark, &record);
        let got = mellansko::append(&mut ours, mark, &record);
        assert_eq!(appended(got), expected);
        assert!(ours == theirs, "{length} bytes at {mark}");
        mark = got.expect("room enough");
    }
    ours.truncate(mark);
    ours
}

/// Places near the ends of blocks and of the log, and some others, up to the log's end.
fn places(length: usize, random: &mut Random) -> Vec<usize> {
    let ends = (0..length).step_by(BLOCK).chain([length]);
    let near = ends.flat_map(|end| end.saturating_sub(8)..=(end + 8).min(length));
    let others = (0..20).map(|_| random.below(length + 1));
    near.chain(others).collect()
}

/// Reads a log to its end call by call, as an iterator and with `advance`. Notes the reasons.
fn read(log: &[u8], limit: usize, reasons: &mut BTreeSet<u8>) {
    let (mut ours, mut theirs) = (vec![0xA5; limit + 3], vec![0xA5; limit + 3]);
    let [mut iterator, mut lending] = [(); 2].map(|()| Reading::with_limit(log, limit).unwrap());
    let mut place = 0;
    loop {
        let call = format!("at {place} of {} with limit {limit}", log.len());
        let expected = log::next(log, place, limit, &mut theirs);
        let got = mellansko::next(log, place, limit, &mut ours);
        place = expected.place_after(log);
        assert_eq!(answered(got), (expected, place), "{call}");
        assert!(ours == theirs, "buffer, {call}");
        let bytes = log::record_bytes(log, &theirs, &expected);
        if let Ok((Next::Record(record), _)) = got {
            assert!(record.bytes(log, &ours) == bytes, "bytes, {call}");
        }
        gives(iterator.next(), expected, bytes, &call);
        gives(lending.advance(), expected, bytes, &call);
        assert_eq!([iterator.place(), lending.place()], [place; 2], "{call}");
        match expected {
            log::Next::Record { .. } => {}
            log::Next::Skip { reason, .. } => _ = reasons.insert(reason),
            log::Next::End(_) => break,
            log::Next::Refused { .. } => panic!("a refusal, {call}"),
        }
    }
    for _ in 0..2 {
        assert_eq!([iterator.next(), lending.advance()], [None, None]);
        assert_eq!([iterator.place(), lending.place()], [place; 2]);
    }
}

/// An answer of a reading, where a whole record's bytes are no copy of the log's.
fn gives(answer: Option<Answer>, expected: log::Next, bytes: &[u8], call: &str) {
    let next = match answer.expect("an answer up to the end") {
        Answer::Record {
            record,
            bytes: ours,
        } => {
            let no_copy = record.stored == Stored::Gathered || ptr::eq(&*ours, bytes);
            assert!(no_copy && *ours == *bytes, "bytes of a reading, {call}");
            Next::Record(record)
        }
        Answer::Skip(skip) => Next::Skip(skip),
        Answer::End(tail) => Next::End(tail),
    };
    assert_eq!(next_of(next), expected, "reading, {call}");
}

/// Mends a log into a slice that is longer than it, into the shortest that does, and into one that
/// is shorter by a byte.
fn mend(log: &[u8], limit: usize) {
    let (mut ours, mut theirs) = (vec![0; limit + 3], vec![0xA5; limit + 3]);
    let (expected, skipped) = mended::mended(log, limit, &mut theirs);
    let length = expected.len();
    let call = format!("{} bytes mended with limit {limit}", log.len());
    for room in [log.len() + 3, length] {
        let mut fresh = vec![0x5A; room];
        // As theirs was, and not as the last call left it.
        ours.fill(0xA5);
        let got = mellansko::mend(log, &mut fresh, limit, &mut ours);
        assert_eq!(got, Ok(Mended { length, skipped }), "{call}");
        assert!(fresh[..length] == expected, "mended log, {call}");
        assert!(fresh[length..].iter().all(|&byte| byte == 0x5A), "{call}");
        assert!(ours == theirs, "buffer, {call}");
    }
    if length > 0 {
        let mut fresh = vec![0x5A; length - 1];
        ours.fill(0xC3);
        let refusal = mellansko::mend(log, &mut fresh, limit, &mut ours).unwrap_err();
        let (number, given) = (4, 0);
        let expected = log::Next::Refused { number, given };
        assert_eq!(refused(refusal), expected, "{call}");
        assert!(fresh.iter().all(|&byte| byte == 0x5A), "fresh, {call}");
        assert!(ours.iter().all(|&byte| byte == 0xC3), "buffer, {call}");
    }
}

#[test]
fn on_every_condition() {
    let mut lent = vec![0; LONGEST_LOG + 1];
    let mut refusals = Vec::new();
    for length in [0, 6, 20, LONGEST_LOG, LONGEST_LOG + 1] {
        let log = &mut lent[..length];
        for place in [0, 13, 14, length, length + 1, usize::MAX] {
            refused_appends(log, place, &mut refusals);
            refused_readings(log, place, &mut refusals);
        }
        let refused = Reading::of(log).err().map(|refusal| refusal.condition);
        assert_eq!(
            refused,
            (length > LONGEST_LOG).then_some(Condition::LogTooLong)
        );
    }
    let numbers = refusals.iter().map(|refusal| refusal.condition.number());
    let numbers: BTreeSet<u8> = numbers.collect();
    assert!(numbers.into_iter().eq(1..=6), "not every condition came up");
}

fn refused_appends(log: &mut [u8], mark: usize, refusals: &mut Vec<Refusal>) {
    let record = vec![7; LONGEST_RECORD + 1];
    for length in [0, LONGEST_RECORD, LONGEST_RECORD + 1] {
        let got = mellansko::append(log, mark, &record[..length]);
        let expected = log::append(log, mark, &record[..length]);
        let call = format!("{length} bytes at {mark} of {}", log.len());
        assert_eq!(appended(got), expected, "{call}");
        refusals.extend(got.err());
    }
}

fn refused_readings(log: &[u8], place: usize, refusals: &mut Vec<Refusal>) {
    let mut buffer = vec![0; LONGEST_RECORD];
    for limit in [0, 1, LONGEST_RECORD, LONGEST_RECORD + 1, usize::MAX] {
        let call = format!("limit {limit} at {place} of {}", log.len());
        for room in [0, 1, LONGEST_RECORD - 1, LONGEST_RECORD] {
            let got = mellansko::next(log, place, limit, &mut buffer[..room]);
            let expected = log::next(log, place, limit, &mut buffer[..room]);
            let on = expected.place_after(log);
            assert_eq!(answered(got), (expected, on), "{call}");
            refusals.extend(got.err());
        }
        let got = Reading::with_limit(log, limit).err().map(refused);
        let expected = log::next(log, 0, limit, &mut buffer);
        let expected = matches!(expected, log::Next::Refused { .. }).then_some(expected);
        assert_eq!(got, expected, "reading, {call}");
    }
}

/// With slices that a record was not read with, and numbers that no call answers: its bytes lie in
/// those slices, or are the first none of the log.
#[test]
fn on_records_of_other_slices() {
    let bytes = [1; 20];
    let slices = [0, 10, 20].map(|end| bytes.split_at(end));
    let numbers = [0, 1, 9, 10, 11, 19, 20, 21, usize::MAX - 19, usize::MAX];
    let whole = numbers.map(Stored::Whole);
    // A record is made by a call alone; its numbers may be changed.
    let Ok((Next::Record(mut record), _)) = mellansko::next(&fragment(1, &[]), 0, 0, &mut [])
    else {
        panic!("a record of no bytes");
    };
    for stored in whole.into_iter().chain([Stored::Gathered]) {
        for length in numbers {
            (record.stored, record.length) = (stored, length);
            let answer = next_of(Next::Record(record));
            for (log, buffer) in slices {
                let expected = log::record_bytes(log, buffer, &answer);
                assert!(ptr::eq(record.bytes(log, buffer), expected), "{record:?}");
            }
        }
    }
}
