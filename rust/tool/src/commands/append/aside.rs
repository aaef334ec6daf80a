//! What an append adds, made without the journal.
//!
//! It depends on the record and on the mark's place in its block alone (docs/FORMAT.md §3.9). So the
//! record is appended to a scratch log, at a mark with the same place in its block; what the block
//! holds before it does not matter. What is added there is what the journal gets.

use mellansko::{Condition, Next, Refusal, BLOCK, LONGEST_LOG};

/// The bytes of a fragment's header.
const HEADER: usize = 7;

pub struct Added {
    /// The scratch log, and where in it the added bytes begin.
    scratch: Vec<u8>,
    mark: usize,
    /// Where the record stands in the journal.
    pub start: usize,
    pub end: usize,
}

impl Added {
    /// What the journal gets, which is more than the record's own span where a block is filled up
    /// before it.
    pub fn bytes(&self) -> &[u8] {
        &self.scratch[self.mark..]
    }
}

/// Appends a record to a journal of so many bytes. It is refused if the proved call would refuse it
/// with all the room that a journal may have.
pub fn append(used: usize, record: &[u8]) -> Result<Added, Refusal> {
    let mark = used % BLOCK;
    let before = used - mark;
    let mut scratch = vec![0; mark + most_added(record.len())];
    let appended = mellansko::append(&mut scratch, mark, record);
    let end = appended.map_err(|refusal| refused(refusal.condition, used))?;
    if before + end > LONGEST_LOG {
        return Err(refused(Condition::NoRoom, used));
    }
    scratch.truncate(end);
    let mut buffer = vec![0; record.len()];
    match mellansko::next(&scratch, mark, record.len(), &mut buffer)? {
        (Next::Record(span), _) => Ok(Added {
            scratch,
            mark,
            start: before + span.start,
            end: before + span.end,
        }),
        _ => unreachable!("what was appended reads back: proved"),
    }
}

/// As the proved call gives back the journal's own mark.
fn refused(condition: Condition, given: usize) -> Refusal {
    Refusal { condition, given }
}

/// The most that an append of so many bytes adds, wherever the mark is: zeros that fill up a block,
/// the record, and a header for each fragment. The first of these may have no data.
fn most_added(length: usize) -> usize {
    let fragments = 1 + length.div_ceil(BLOCK - HEADER);
    HEADER - 1 + length + HEADER * fragments
}

#[cfg(test)]
mod test {
    use super::*;
    use mellansko::LONGEST_RECORD;

    /// Holds an append aside to the proved call on the whole log, of which the system lends no more
    /// than is touched.
    fn check(log: &mut [u8], mark: usize, record: &[u8]) {
        let case = format!("{} bytes at {mark}", record.len());
        match (append(mark, record), mellansko::append(log, mark, record)) {
            (Ok(added), Ok(end)) => {
                assert_eq!(added.end, end, "{case}");
                assert!(added.bytes() == &log[mark..end], "{case}");
                let mut buffer = vec![0; LONGEST_RECORD];
                let next = mellansko::next(&log[..end], mark, LONGEST_RECORD, &mut buffer);
                let Ok((Next::Record(span), _)) = next else {
                    panic!("{next:?}: {case}");
                };
                assert_eq!((added.start, added.end), (span.start, span.end), "{case}");
            }
            (aside, whole) => assert_eq!(aside.map(|added| added.end), whole, "{case}"),
        }
    }

    #[test]
    fn an_append_aside_is_that_of_the_whole_log() {
        let mut log = vec![0; LONGEST_LOG];
        let record: Vec<u8> = (0..=LONGEST_RECORD).map(|i| (i / 7) as u8).collect();
        let data = BLOCK - HEADER;
        for left in [0, 1, 6, 7, 8, 9, 100, data, BLOCK - 1] {
            for block in [1, 2, 1_000] {
                let mark = block * BLOCK - left;
                for length in [0, 1, 2, data - 1, data, data + 1, 100_000] {
                    check(&mut log, mark, &record[..length]);
                }
            }
            for length in [LONGEST_RECORD, LONGEST_RECORD + 1] {
                check(&mut log, 3 * BLOCK - left, &record[..length]);
            }
        }
    }

    #[test]
    fn the_last_room_is_that_of_the_whole_log() {
        let mut log = vec![0; LONGEST_LOG];
        let record = vec![7; LONGEST_RECORD + 1];
        for left in [0, 1, 6, 7, 8, 100, BLOCK, BLOCK + 7, 2 * BLOCK + 6] {
            let headers = HEADER * left.div_ceil(BLOCK);
            let just = left.saturating_sub(headers);
            for length in just.saturating_sub(8)..just + 8 {
                check(&mut log, LONGEST_LOG - left, &record[..length]);
            }
            check(&mut log, LONGEST_LOG - left, &record);
        }
        check(&mut log, LONGEST_LOG - 4_195_207, &record[..LONGEST_RECORD]);
        check(&mut log, LONGEST_LOG - 4_195_206, &record[..LONGEST_RECORD]);
    }
}
