//! Which fragments of a log are accepted (docs/FORMAT.md, §11.10), by the answers of the whole log.

use reference::log::{Next, Tail, BLOCK, HEADER};
use std::ops::Range;

/// An accepted fragment: where it lies, and where in the buffer its data are put.
#[derive(Clone, Debug)]
pub struct Accepted {
    pub span: Range<usize>,
    pub front: usize,
}

impl Accepted {
    pub fn data<'a>(&self, log: &'a [u8]) -> &'a [u8] {
        &log[self.span.start + HEADER..self.span.end]
    }

    pub fn length(&self) -> usize {
        self.span.len() - HEADER
    }
}

/// All accepted fragments, in their order.
pub fn accepted(log: &[u8], answers: &[Next]) -> Vec<Accepted> {
    answers
        .iter()
        .flat_map(|answer| match *answer {
            Next::Record { start, end, .. } => fragments(log, start..end),
            // A record that breaks off or begins afresh: all that it has.
            Next::Skip {
                start,
                end,
                reason: 4 | 8,
            } => fragments(log, start..end),
            // The fragment that is too much is not accepted.
            Next::Skip {
                start,
                end,
                reason: 7,
            } => {
                let mut before = fragments(log, start..end);
                before.pop();
                before
            }
            // The tail is a record that is open, or has no whole fragment.
            Next::End(Tail::Torn(start)) => fragments(log, start..log.len()),
            _ => Vec::new(),
        })
        .collect()
}

/// The whole fragments of a record that lies in this range, by their lengths.
fn fragments(log: &[u8], range: Range<usize>) -> Vec<Accepted> {
    let mut all = Vec::new();
    let (mut place, mut front) = (range.start, 0);
    while place + HEADER <= range.end {
        let left = BLOCK - place % BLOCK;
        if left < HEADER {
            place += left;
            continue;
        }
        let length = usize::from(u16::from_le_bytes([log[place + 4], log[place + 5]]));
        let end = place + HEADER + length;
        if end > range.end {
            break;
        }
        all.push(Accepted {
            span: place..end,
            front,
        });
        (place, front) = (end, front + length);
    }
    all
}
