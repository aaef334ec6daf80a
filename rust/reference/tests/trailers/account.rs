//! What is said of a reading of any log: where its bytes are (§6.2, §14.4), what a range of reason 9
//! is (§14.5), and how many calls it takes (§6.3). Random bytes, fragments as no writer puts them,
//! blocks that end in trailers, and damaged journals.

use crate::calls::most_calls;
use crate::dirty::{self, Met};
use crate::hurt::hurt;
use crate::make::{any_length, pick, written_log};
use crate::mixed;
use crate::random::Random;
use reference::log::{next, Next, Tail, BLOCK, HEADER, LONGEST_RECORD};
use std::ops::Range;

/// Reads a log, and holds the reading to the page.
fn hold(random: &mut Random, met: &mut Met, log: &[u8]) {
    // The last of them is one that no record is over, since none has more bytes than the log.
    let high = log.len().min(LONGEST_RECORD);
    let limit = pick(random, &[0, 9, 1_000, BLOCK, high]);
    let mut buffer = vec![0; limit];
    let (mut place, mut answers) = (0, Vec::new());
    loop {
        let answer = next(log, place, limit, &mut buffer);
        answers.push(answer);
        let on = answer.place_after(log);
        match answer {
            Next::End(_) => break,
            Next::Skip { reason: 9, .. } => assert!(on > place, "{random}, {answer:?}"),
            _ => assert!(on >= place + HEADER, "{random}, {answer:?}"),
        }
        place = on;
    }
    assert!(answers.len() <= most_calls(log.len()), "{random}");
    dirty_ranges(log, &answers);
    fragments_and_zeros(log, &answers);
    between(log, &answers);
    met.count(&answers);
}

/// A range of reason 9: one to six bytes, of which one is not zero, up to where the block or the log
/// ends; and none other in its block.
fn dirty_ranges(log: &[u8], answers: &[Next]) {
    let mut last_block = None;
    for answer in answers {
        let Next::Skip {
            start,
            end,
            reason: 9,
        } = *answer
        else {
            continue;
        };
        let block_end = (start / BLOCK + 1) * BLOCK;
        assert_eq!(end, block_end.min(log.len()));
        assert!((1..HEADER).contains(&(end - start)));
        assert!(block_end - start < HEADER);
        assert!(log[start..end].iter().any(|byte| *byte != 0));
        let block = Some(start / BLOCK);
        assert!(last_block < block, "twice in block {block:?}");
        last_block = block;
    }
}

/// In a record's span and in an empty start every byte belongs to a fragment, or is a zero of a
/// trailer. (So it is where a record is interrupted or over the limit.)
fn fragments_and_zeros(log: &[u8], answers: &[Next]) {
    for answer in answers {
        let (Next::Record { start, end, .. }
        | Next::Skip {
            start,
            end,
            reason: 4 | 7 | 8,
        }) = *answer
        else {
            continue;
        };
        let mut place = start;
        while place < end {
            let left = BLOCK - place % BLOCK;
            if left < HEADER {
                let trailer = &log[place..end.min(place + left)];
                assert!(trailer.iter().all(|byte| *byte == 0), "at {place}");
                place += left;
                continue;
            }
            let length = u16::from_le_bytes([log[place + 4], log[place + 5]]);
            place += HEADER + usize::from(length);
        }
        assert!(place == end, "{answer:?}");
    }
}

/// The bytes that are in none of the answers are zeros, and fewer than seven bytes are left in the
/// block of each. No byte is in two answers, and they come in their order.
fn between(log: &[u8], answers: &[Next]) {
    let mut end = 0;
    for answer in answers {
        let range = range(log, answer);
        assert!(end <= range.start, "{answer:?}");
        passed(log, end..range.start);
        end = range.end;
    }
    assert_eq!(end, log.len());
}

/// What an answer covers. A clean end has no bytes.
fn range(log: &[u8], answer: &Next) -> Range<usize> {
    match *answer {
        Next::Record { start, end, .. } | Next::Skip { start, end, .. } => start..end,
        Next::End(Tail::Torn(start)) => start..log.len(),
        _ => log.len()..log.len(),
    }
}

fn passed(log: &[u8], range: Range<usize>) {
    for place in range {
        assert_eq!(log[place], 0, "at {place}");
        assert!(BLOCK - place % BLOCK < HEADER, "at {place}");
    }
}

#[test]
fn of_random_bytes() {
    let random = &mut Random::new();
    println!("{random}");
    let met = &mut Met::default();
    for round in 0..300 {
        let length = any_length(random, if round % 5 == 0 { 18 } else { 9 });
        let log = random.bytes(length);
        hold(random, met, &log);
    }
}

#[test]
fn of_fragments_as_no_writer_puts_them() {
    let random = &mut Random::new();
    println!("{random}");
    let met = &mut Met::default();
    for _ in 0..500 {
        let length = random.below(4 * BLOCK);
        let log = mixed::log(random, length);
        hold(random, met, &log);
    }
    met.at_least(20, 10);
}

#[test]
fn of_blocks_that_end_in_trailers() {
    let random = &mut Random::new();
    println!("{random}");
    let met = &mut Met::default();
    for _ in 0..1_500 {
        let blocks = 1 + random.below(3);
        let mut log = dirty::log(random, blocks);
        hold(random, met, &log);
        // And with a byte changed near the end of a block.
        if log.len() >= BLOCK {
            log[BLOCK - 1 - random.below(20)] ^= 1 << random.below(8);
            hold(random, met, &log);
        }
    }
    met.at_least(500, 300);
}

#[test]
fn of_journals_damaged() {
    let random = &mut Random::new();
    println!("{random}");
    let met = &mut Met::default();
    for _ in 0..1_500 {
        let records = 1 + random.below(6);
        let mut log = written_log(random, records);
        let other = written_log(random, 2);
        for _ in 0..1 + random.below(4) {
            hurt(random, &mut log, &other);
        }
        hold(random, met, &log);
    }
    met.at_least(10, 1);
}
