//! Logs of records in fragments as no append makes them, and what is known of each from its making.

use crate::random::Random;
use crate::read::Numbers;
use reference::log::{fragment, BLOCK, FIRST, FULL, HEADER, LAST, MIDDLE};

#[derive(Default)]
pub struct Laid {
    pub log: Vec<u8>,
    pub records: Vec<Numbers>,
    /// How many zeros are in the trailers between fragments of one record.
    pub zeros: usize,
}

impl Laid {
    /// So many records, of which some are one fragment. Before some of them stands one that breaks off
    /// there, an empty start, or an orphan.
    pub fn new(records: usize, random: &mut Random) -> Laid {
        let mut laid = Laid::default();
        for _ in 0..records {
            match random.below(6) {
                0 => laid.several(&[FIRST, MIDDLE], random),
                1 => laid.several(&[FIRST], random),
                2 => _ = laid.fragment(FIRST, 0),
                3 => _ = laid.fragment(MIDDLE, 5),
                _ => {}
            }
            laid.record(random);
        }
        laid
    }

    /// Fragments of a record that is not finished.
    fn several(&mut self, kinds: &[u8], random: &mut Random) {
        for kind in kinds {
            let length = 1 + self.length(random);
            self.fragment(*kind, length);
        }
    }

    /// A FULL, or a FIRST, MIDDLEs or none, and a LAST.
    fn record(&mut self, random: &mut Random) {
        let kinds = match random.below(4) {
            0 => vec![FULL],
            _ => [vec![FIRST], vec![MIDDLE; random.below(6)], vec![LAST]].concat(),
        };
        let (mut start, mut length, mut last) = (None, 0, 0);
        for kind in &kinds {
            let data = self.length(random);
            let before = self.log.len();
            last = self.fragment(*kind, data);
            if start.is_some() {
                self.zeros += last - before;
            }
            start.get_or_insert(last);
            length += self.log.len() - last - HEADER;
        }
        let start = start.expect("a fragment at least");
        let end = self.log.len();
        self.records.push([start, end, length, kinds.len(), last]);
    }

    /// A length for the next fragment's data: none, a few bytes, or up to the block's end, or to a few
    /// bytes before it, where a trailer may be next.
    fn length(&self, random: &mut Random) -> usize {
        let room = (BLOCK - self.log.len() % BLOCK).saturating_sub(HEADER);
        match random.below(6) {
            0 | 1 => 0,
            2 | 3 => random.below(20),
            4 => room,
            _ => room.saturating_sub(random.below(9)),
        }
    }

    /// A fragment of so many bytes, or of as many as the block has room for, after a trailer if there
    /// has to be one. Gives where it starts.
    pub fn fragment(&mut self, kind: u8, length: usize) -> usize {
        let left = BLOCK - self.log.len() % BLOCK;
        if left < HEADER {
            self.log.resize(self.log.len() + left, 0);
        }
        let place = self.log.len();
        let room = BLOCK - place % BLOCK - HEADER;
        let data = vec![kind; length.min(room)];
        self.log.extend(fragment(kind, &data));
        place
    }
}
