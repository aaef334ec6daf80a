//! LevelDB as the witness for trailers (docs/FORMAT.md, §14.1): its writer fills them with zeros, and
//! its reader does not look at them. Here they are named, and the records are the same.

use super::interop::leveldb;
use super::{fed_answers, records_of};
use mellansko::{Answer, Reading, Reason, Skip, BLOCK};
use reference::log::HEADER;

/// Records of which the first leaves so many bytes of its block.
fn records(left: usize) -> Vec<Vec<u8>> {
    vec![
        vec![1; BLOCK - HEADER - left],
        vec![2; 1_000],
        vec![3; 40_000],
    ]
}

/// The records, and the one range that is skipped.
fn kept(mut answers: Vec<Answer>) -> (Vec<Vec<u8>>, Skip) {
    let skipped = answers.iter().position(|a| matches!(a, Answer::Skip(_)));
    let Answer::Skip(skip) = answers.remove(skipped.expect("a skipped range")) else {
        unreachable!("it is one");
    };
    (records_of(answers), skip)
}

/// Each byte of each trailer; all of the log, and cut right after that byte.
#[test]
fn of_a_dirty_trailer_leveldb_says_nothing() {
    let Some(leveldb) = leveldb() else { return };
    for left in 1..HEADER {
        let records = records(left);
        let written = leveldb.write(&records);
        let start = BLOCK - left;
        assert_eq!(written[start..BLOCK], [0; HEADER][..left], "{left}");
        for place in start..BLOCK {
            let mut log = written.clone();
            log[place] = 1 << (place % 8);
            let cases = [
                (&log[..], &records[..], BLOCK),
                (&log[..=place], &records[..1], place + 1),
            ];
            for (log, records, end) in cases {
                let case = format!("byte {place} of {}", log.len());
                assert!(leveldb.read(log).as_deref() == Ok(records), "{case}");
                let reason = Reason::DirtyTrailer;
                let skip = Skip { start, end, reason };
                let whole = Reading::of(log).expect("no refusal").collect();
                for answers in [whole, fed_answers(log, 1_000)] {
                    let (ours, skipped) = kept(answers);
                    assert_eq!(skipped, skip, "{case}");
                    assert!(ours == records, "{case}");
                }
            }
        }
    }
}
