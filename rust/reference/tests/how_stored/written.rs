//! Logs that lists of appends made (§7.2): whole, cut, with a block changed and with dirty
//! trailers. What comes out as written has the numbers that its append gave it (§16.5). They are
//! read with a limit that no record is over.

use crate::appends::{as_appended, layout};
use crate::fed::same_in_pieces;
use crate::make::{pick, record, record_length, LONG};
use crate::random::Random;
use crate::reading::{reading, records};
use reference::log::{append, Appended, Next, Stored, Tail, BLOCK, HEADER};

struct Written {
    log: Vec<u8>,
    /// The answers that are due for the records, each as its append stored it.
    due: Vec<Next>,
}

fn written(random: &mut Random, records: usize) -> Written {
    let (mut log, mut due) = (Vec::new(), Vec::new());
    for _ in 0..records {
        let mark = log.len();
        let length = record_length(random, mark, 14).min(LONG);
        let layout = layout(mark, length);
        let (start, end) = (layout.span.start, layout.span.end);
        log.resize(end, 0xA5);
        let record = record(random, length);
        assert_eq!(append(&mut log, mark, &record), Appended::Mark(end));
        let (fragments, last_header) = layout.how_stored();
        due.push(Next::Record {
            start,
            end,
            length,
            stored: match fragments {
                1 => Stored::Whole(start + HEADER),
                _ => Stored::Gathered,
            },
            fragments,
            last_header,
        });
    }
    Written { log, due }
}

fn span(answer: &Next) -> (usize, usize) {
    match *answer {
        Next::Record { start, end, .. } => (start, end),
        _ => panic!("{answer:?} is no record"),
    }
}

/// §7.4 and §7.5.
#[test]
fn whole_and_cut() {
    let random = &mut Random::new();
    println!("{random}");
    for _ in 0..60 {
        let count = random.below(8);
        let Written { log, due } = written(random, count);
        let mut whole = due.clone();
        whole.push(Next::End(Tail::Clean));
        assert_eq!(reading(&log, LONG), whole, "{random}");
        same_in_pieces(random, &log, LONG, &whole);
        for _ in 0..4 {
            let cut = random.below(log.len() + 1);
            let answers = reading(&log[..cut], LONG);
            let kept = due.iter().filter(|answer| span(answer).1 <= cut);
            assert!(records(&answers).iter().eq(kept), "{random}, cut to {cut}");
            same_in_pieces(random, &log[..cut], LONG, &answers);
        }
    }
}

/// §7.6.
#[test]
fn with_a_block_changed() {
    let random = &mut Random::new();
    println!("{random}");
    for _ in 0..150 {
        let count = 2 + random.below(8);
        let Written { mut log, due } = written(random, count);
        let place = random.below(log.len());
        let start = place / BLOCK * BLOCK;
        let end = log.len().min(start + BLOCK);
        match random.below(3) {
            0 => log[start..end].fill(0),
            1 => log[start..end].copy_from_slice(&random.bytes(end - start)),
            _ => log[place] ^= 1 << random.below(8),
        }
        let answers = reading(&log, LONG);
        let read = records(&answers);
        let before = due.iter().filter(|answer| span(answer).1 <= start).count();
        let after = due.iter().filter(|answer| span(answer).0 >= end).count();
        assert!(read[..before] == due[..before], "{random}");
        let [read_from, due_from] = [read.len(), due.len()].map(|all| all - after);
        assert!(read[read_from..] == due[due_from..], "{random}");
        same_in_pieces(random, &log, LONG, &answers);
    }
}

/// §14.5: any bytes in the trailers.
#[test]
fn with_dirty_trailers() {
    let random = &mut Random::new();
    println!("{random}");
    let mut dirty = 0;
    for _ in 0..60 {
        let Written { mut log, due } = written(random, 12);
        let mut end = 0;
        for record in &due {
            let (start, next_end) = span(record);
            log[end..start].fill(pick(random, &[0, 1, 0xFF]));
            dirty += usize::from(log[end..start].iter().any(|byte| *byte != 0));
            end = next_end;
        }
        let answers = reading(&log, LONG);
        assert_eq!(records(&answers), due, "{random}");
        same_in_pieces(random, &log, LONG, &answers);
    }
    println!("{dirty} dirty trailers");
    assert!(dirty >= 10, "{dirty}");
}

/// The files in `samples/`, LevelDB's own among them: its writer fills blocks too. So does the old
/// one, which begins a record afresh at a block's start (§13.1).
#[test]
fn in_the_samples() {
    let samples: [&[u8]; 5] = [
        include_bytes!("../../../../samples/clean.log"),
        include_bytes!("../../../../samples/torn.log"),
        include_bytes!("../../../../samples/damaged.log"),
        include_bytes!("../../../../samples/leveldb.log"),
        include_bytes!("../../../../samples/old_writer.log"),
    ];
    for log in samples {
        let read = records(&reading(log, LONG));
        assert!(read.len() > 100);
        read.iter().for_each(as_appended);
    }
}
