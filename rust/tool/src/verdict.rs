//! The answer in one line: what a reading found, and no more than that.

use crate::survey::Survey;
use crate::words::{blocks_among, bytes, count, from_to, grouped, numbered};
use crate::wrap::TIED;

impl Survey {
    pub fn verdict(&self) -> String {
        if self.length == 0 {
            return "no damage found, but it is empty: it has no bytes and no records".into();
        }
        if self.gaps.number() == 0 {
            return format!(
                "no damage found in its {}, {}. It has {}",
                bytes(self.length),
                count(self.blocks(), "block", "blocks"),
                self.records_and_last("")
            );
        }
        format!(
            "IN{TIED}DOUBT: {}. It has {}",
            self.doubtful(),
            self.records_and_last("readable ")
        )
    }

    /// How much is in doubt, in which blocks, and whether the end is torn.
    pub fn doubtful(&self) -> String {
        let doubt = self.gaps.bytes();
        let torn = match self.torn {
            Some(start) => format!("; its end is torn from {} on", numbered("byte", start)),
            None => String::new(),
        };
        let bytes = match doubt == self.length {
            true => format!("all of its {}", bytes(doubt)),
            false => format!("{} of its {}", grouped(doubt), bytes(self.length)),
        };
        let blocks = blocks_among(&self.doubtful_blocks(), self.blocks());
        format!("{bytes}, in {blocks}{torn}")
    }

    /// How many such records there are, and where the last one stands: whoever knows what was
    /// written can compare.
    fn records_and_last(&self, such: &str) -> String {
        let Some(last) = self.last else {
            return format!("no {such}record");
        };
        let place = from_to(last.start, last.end);
        let (one, many) = (format!("{such}record"), format!("{such}records"));
        let records = count(last.number, &one, &many);
        match last.number {
            1 => format!("{records}, {place}"),
            number => format!(
                "{records}; the last is {}, {place}",
                numbered("record", number)
            ),
        }
    }

    /// The blocks that have a byte in doubt, as runs of their numbers from 1 on.
    fn doubtful_blocks(&self) -> Vec<(usize, usize)> {
        let mut runs: Vec<(usize, usize)> = Vec::new();
        for (mark, block) in self.marks.iter().zip(1..) {
            match runs.last_mut() {
                _ if !mark.doubt && !mark.torn => {}
                Some(run) if run.1 + 1 == block => run.1 = block,
                _ => runs.push((block, block)),
            }
        }
        runs
    }
}
