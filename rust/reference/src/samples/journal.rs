//! A journal that is being written, and what was written into it.

use crate::log::{append, fragment, Appended, BLOCK, FIRST, HEADER};

/// Room for the whole day.
const ROOM: usize = 5 * BLOCK;

pub struct Journal {
    pub records: Vec<String>,
    /// Where each record starts and ends.
    spans: Vec<(usize, usize)>,
    pub log: Vec<u8>,
}

impl Journal {
    pub(super) fn new() -> Journal {
        Journal {
            records: Vec::new(),
            spans: Vec::new(),
            log: vec![0; ROOM],
        }
    }

    pub(super) fn write(&mut self, record: String) {
        let (mark, left) = (self.mark(), self.left());
        let trailer = if left < HEADER { left } else { 0 };
        self.append(mark, mark + trailer, record);
    }

    pub(super) fn write_all(&mut self, records: Vec<String>) {
        for record in records {
            self.write(record);
        }
    }

    /// Writes a record as early LevelDB writers did it where exactly a header's bytes are left: an
    /// empty FIRST there, with which nothing goes on, and the record at the next block's start.
    pub(super) fn write_afresh(&mut self, record: String) {
        let mark = self.mark();
        let start = mark + HEADER;
        assert_eq!(start % BLOCK, 0, "a header's bytes are left");
        self.log[mark..start].copy_from_slice(&fragment(FIRST, b""));
        self.append(start, start, record);
    }

    /// Appends a record at a mark; its first header is at this start.
    fn append(&mut self, mark: usize, start: usize, record: String) {
        let answer = append(&mut self.log, mark, record.as_bytes());
        let Appended::Mark(end) = answer else {
            panic!("{answer:?}, with room enough");
        };
        self.spans.push((start, end));
        self.records.push(record);
    }

    /// Writes a record that begins as given, goes on with these figures, and leaves so many bytes
    /// of the block.
    pub(super) fn write_up_to(
        &mut self,
        left: usize,
        begin: &str,
        mut figure: impl FnMut() -> u64,
    ) {
        let end = self.mark().next_multiple_of(BLOCK) - left;
        let mut record = begin.to_string();
        while self.mark() + HEADER + record.len() < end {
            record += &figure().to_string();
        }
        self.write(record);
        assert_eq!(self.mark(), end, "figures of one digit, and room for them");
    }

    /// No more records: what is not used is cut off.
    pub(super) fn close(mut self) -> Journal {
        self.log.truncate(self.mark());
        self
    }

    /// Where a record starts and ends.
    pub fn span(&self, record: usize) -> (usize, usize) {
        self.spans[record]
    }

    /// How many bytes are left in the block.
    pub(super) fn left(&self) -> usize {
        BLOCK - self.mark() % BLOCK
    }

    fn mark(&self) -> usize {
        self.spans.last().map_or(0, |&(_, end)| end)
    }
}
