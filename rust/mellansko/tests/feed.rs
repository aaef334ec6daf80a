//! The reader that is fed in pieces, by its types, beside the reference's reading of the whole log.

mod expected;
mod fed;
mod random;

use fed::{logs, moments, of_the_whole, piece_length, told, Told};
use mellansko::{Answer, Certain, Condition, Feed, Reason, Refusal, Skip, Tail, BLOCK};
use mellansko::{LONGEST_LOG, LONGEST_RECORD};
use random::Random;
use reference::log::{fragment, FIRST, FULL, LAST};

/// A way to feed a piece and to draw all that is then certain.
type Way = fn(&mut Feed, &[u8], &mut Vec<Told>);

const WAYS: [Way; 4] = [by_hand, lending, iterated, drawn];

fn by_hand(feed: &mut Feed, mut piece: &[u8], answers: &mut Vec<Told>) {
    loop {
        let room = feed.room();
        let taken = feed.take(piece).expect("no refusal");
        assert_eq!(taken, piece.len().min(room));
        piece = &piece[taken..];
        while let Some(answer) = feed.advance() {
            answers.push(told(answer));
        }
        assert!(feed.room() > 0, "with nothing more certain");
        if piece.is_empty() {
            return;
        }
    }
}

fn lending(feed: &mut Feed, piece: &[u8], answers: &mut Vec<Told>) {
    let mut certain = feed.push(piece).expect("no refusal");
    while let Some(answer) = certain.advance() {
        answers.push(told(answer));
    }
    assert_eq!(certain.rest(), b"");
}

fn iterated(feed: &mut Feed, piece: &[u8], answers: &mut Vec<Told>) {
    answers.extend(feed.push(piece).expect("no refusal").map(told));
}

/// Each piece is pushed again and again, by what is left of it after every answer.
fn drawn(feed: &mut Feed, mut piece: &[u8], answers: &mut Vec<Told>) {
    loop {
        let mut certain = feed.push(piece).expect("no refusal");
        let answer = certain.next().map(told);
        piece = certain.rest();
        match answer {
            Some(answer) => answers.push(answer),
            None => return assert_eq!(piece, b""),
        }
    }
}

/// Pieces of all kinds: the answers of the whole log, each as early as if it came byte by byte.
#[test]
fn in_pieces_of_any_lengths() {
    let mut random = Random::new();
    println!("{random}");
    for (log, limit) in logs(&mut random) {
        let expected = of_the_whole(&log, limit);
        let moments = moments(&log, limit);
        let fixed = [1, 2, 7, 100, 4_096, BLOCK - 1, BLOCK, BLOCK + 1, 1 << 20];
        for length in fixed.map(Some).into_iter().chain([None; 6]) {
            // Those of a byte, once.
            let ways = if length == Some(1) { 1 } else { WAYS.len() };
            for way in &WAYS[..ways] {
                let mut feed = Feed::with_limit(limit).expect("no refusal");
                let (mut answers, mut rest) = (Vec::new(), &log[..]);
                while !rest.is_empty() {
                    let length = length.unwrap_or_else(|| piece_length(&mut random));
                    let (piece, after) = rest.split_at(length.min(rest.len()));
                    way(&mut feed, piece, &mut answers);
                    rest = after;
                    let early = moments.iter().filter(|&&moment| moment <= feed.came());
                    assert_eq!(answers.len(), early.count(), "after {}", feed.came());
                }
                assert_eq!(feed.came(), log.len());
                feed.end();
                answers.extend(feed.certain().map(told));
                assert!(answers == expected, "{length:?} of {}", log.len());
            }
        }
    }
}

/// docs/FORMAT.md, §11.13.
#[test]
fn at_the_moments_of_the_example() {
    let mut log = vec![0; 106_311];
    let mut mark = 0;
    for length in [1_000, 97_270, 8_000] {
        mark = mellansko::append(&mut log, mark, &vec![7; length]).expect("room");
    }
    assert_eq!(mark, log.len());
    let expected = [1_007, 32_768, 65_536, 98_298, 106_311];
    assert_eq!(moments(&log, 24_576), expected);
    assert_eq!(of_the_whole(&log, 24_576).len(), expected.len() + 1);
}

/// §11.8, rule by rule: before this many bytes nothing is certain, and then this many answers are.
#[test]
fn at_the_earliest_moments() {
    let full = fragment(FULL, b"12345");
    let first = fragment(FIRST, b"12");
    let hopeless = [0, 0, 0, 0, 0xFF, 0xFF, 1];
    let mut damaged = full.clone();
    damaged[0] ^= 1;
    let padded = |bytes: &[u8], length| [bytes, &vec![0; length - bytes.len()]].concat();
    let begun = fragment(FIRST, b"");
    let cases: [(Vec<u8>, usize, &[usize]); 9] = [
        (full.clone(), 5, &[12]),
        // Over the limit, and so are all its data awaited.
        (full.clone(), 4, &[12]),
        (hopeless.to_vec(), 5, &[]),
        (padded(&hopeless, BLOCK), 5, &[BLOCK]),
        (padded(&damaged, BLOCK + 9), 5, &[BLOCK]),
        // With a record open, what is bad interrupts it at once.
        ([&first[..], &hopeless].concat(), 5, &[16]),
        ([&first[..], &damaged].concat(), 5, &[21]),
        // An empty start is certain together with the record that begins there.
        ([&begun[..], &full].concat(), 5, &[19, 19]),
        ([first, fragment(LAST, b"3"), full].concat(), 5, &[17, 29]),
    ];
    for (i, (log, limit, expected)) in cases.iter().enumerate() {
        assert_eq!(moments(log, *limit), *expected, "case {i}");
    }
}

/// docs/FORMAT.md, §13.4: across the blocks of a log of an early writer, in pieces of any lengths.
#[test]
fn with_an_empty_start() {
    let mut log = vec![0; 2 * BLOCK];
    let mark = mellansko::append(&mut log, 0, &[1; 32_754]).expect("room");
    log[mark..BLOCK].copy_from_slice(&fragment(FIRST, b""));
    let end = mellansko::append(&mut log, BLOCK, b"LW11").expect("room");
    let skip = Skip {
        start: mark,
        end: BLOCK,
        reason: Reason::EmptyStart,
    };
    for length in [1, 6, 7, 4_096, BLOCK, BLOCK + 10, end] {
        let (mut feed, mut answers) = (Feed::new(), Vec::new());
        for piece in log[..end].chunks(length) {
            answers.extend(feed.push(piece).expect("no refusal"));
            assert!(feed.came() == end || answers.len() < 2, "{length}");
        }
        assert_eq!(answers.len(), 3, "{length}");
        assert_eq!(answers[1], Answer::Skip(skip), "{length}");
        assert!(matches!(&answers[2], Answer::Record { bytes, .. } if **bytes == *b"LW11"));
        feed.end();
        assert_eq!(feed.advance(), Some(Answer::End(Tail::Clean)));
    }
}

/// Pieces that the block has no room for, and answers that nobody asks for.
#[test]
fn with_answers_drawn_late() {
    let mut log = fragment(FULL, b"").repeat(BLOCK / 7 + 1);
    log[BLOCK - 1] = 0;
    let mut feed = Feed::new();
    assert_eq!(feed.take(&log), Ok(BLOCK));
    for _ in 0..3 {
        assert_eq!((feed.room(), feed.take(&log[BLOCK..])), (0, Ok(0)));
        assert_eq!(feed.push(&log[BLOCK..]).map(|c| c.rest().len()), Ok(6));
    }
    // All records of the block are certain, and its last byte is a trailer's.
    assert_eq!(feed.certain().count(), BLOCK / 7);
    assert_eq!(
        (feed.place(), feed.came(), feed.room()),
        (BLOCK, BLOCK, BLOCK)
    );
    assert_eq!(feed.push(&[]).map(Iterator::count), Ok(0));
}

#[test]
fn with_a_record_open() {
    let log = [
        fragment(FULL, b"LW"),
        fragment(FIRST, b"LW10"),
        fragment(LAST, b"-1"),
    ]
    .concat();
    let mut feed = Feed::with_limit(6).expect("no refusal");
    assert_eq!(feed.push(&log[..25]).map(Iterator::count), Ok(1));
    // All before the open record is answered for.
    assert_eq!(
        (feed.place(), feed.came(), feed.room()),
        (9, 25, BLOCK - 25)
    );
    let Some(Answer::Record { record, bytes }) = feed.push(&log[25..]).unwrap().next() else {
        panic!("a record");
    };
    assert_eq!((record.start, record.end, &*bytes), (9, 29, &b"LW10-1"[..]));
    assert_eq!((record.fragments, record.last_header), (2, 20));
    assert_eq!((feed.place(), feed.came()), (29, 29));
}

#[test]
fn after_the_end() {
    let refused = |result: Result<usize, Refusal>| {
        let condition = Condition::AfterEnd;
        assert_eq!(
            result,
            Err(Refusal {
                condition,
                given: 0
            })
        );
    };
    let mut feed = Feed::new();
    assert_eq!(feed.take(&fragment(FULL, b"LW10")[..9]), Ok(9));
    assert_eq!(feed.advance(), None);
    feed.end();
    for piece in [&[][..], &[0]] {
        refused(feed.take(piece));
        refused(feed.push(piece).map(Iterator::count));
    }
    feed.end();
    assert_eq!(feed.advance(), Some(Answer::End(Tail::Torn(0))));
    for _ in 0..2 {
        assert_eq!(feed.advance(), None);
        assert_eq!(feed.certain().next(), None);
        refused(feed.take(&[]));
    }
    assert_eq!((feed.place(), feed.came()), (0, 9));
}

#[test]
fn with_logs_of_the_greatest_length() {
    let zeros = vec![0; LONGEST_LOG + 1];
    let too_long = |feed: &mut Feed, length: usize| {
        let condition = Condition::LogTooLong;
        let refused = Err(Refusal {
            condition,
            given: 0,
        });
        assert_eq!(feed.take(&zeros[..length]), refused);
        assert_eq!(feed.push(&zeros[..length]).map(Certain::count), refused);
    };
    let mut feed = Feed::with_limit(0).expect("no refusal");
    // Judged for all of the piece, also where only a part of it would be taken.
    too_long(&mut feed, LONGEST_LOG + 1);
    assert_eq!(feed.take(&[0]), Ok(1));
    too_long(&mut feed, LONGEST_LOG);
    assert_eq!(feed.came(), 1);
    let skips = feed.push(&zeros[..LONGEST_LOG - 1]).map(Iterator::count);
    assert_eq!((skips, feed.came()), (Ok(LONGEST_LOG / BLOCK), LONGEST_LOG));
    too_long(&mut feed, 1);
    assert_eq!(feed.take(&[]), Ok(0));
    feed.end();
    too_long(&mut feed, 1);
    assert_eq!(feed.advance(), Some(Answer::End(Tail::Clean)));
}

#[test]
fn with_limits_that_are_refused() {
    for limit in [LONGEST_RECORD + 1, usize::MAX] {
        let condition = Condition::LimitTooHigh;
        let refusal = Feed::with_limit(limit).expect_err("too high");
        assert_eq!(
            refusal,
            Refusal {
                condition,
                given: 0
            }
        );
    }
    let said = format!(
        "{:?}",
        Feed::with_limit(LONGEST_RECORD).expect("no refusal")
    );
    assert_eq!(said, format!("{:?}", Feed::default()));
    let shown = "Feed { place: 0, came: 0, limit: 4194304, ended: false, .. }";
    assert_eq!(said, shown);
}
