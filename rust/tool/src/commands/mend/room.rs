//! The memory that mending takes: for both journals, and for a record.

use crate::words::bytes;
use mellansko::{Refusal, LONGEST_RECORD};
use std::collections::TryReserveError;

/// What is taken besides, by the reader and for what is told, is well below this.
const SPARE: usize = 16 << 20;

pub struct Room {
    bad: Vec<u8>,
    new: Vec<u8>,
    record: Vec<u8>,
    /// Why no more of the bad journal could be kept, if so.
    lacking: Option<TryReserveError>,
}

/// What was made of the bad journal.
pub struct Made {
    pub new: Vec<u8>,
    /// Whether it is the same, byte for byte.
    pub same: bool,
    /// How many bytes were left out.
    pub skipped: usize,
}

impl Room {
    /// All that it takes to mend a journal of so many bytes, asked for at once: a program that is
    /// refused memory later on can only be ended.
    pub fn for_journal(length: usize) -> Result<Room, TryReserveError> {
        let room = Room {
            bad: reserved(length)?,
            new: reserved(length)?,
            record: reserved(LONGEST_RECORD)?,
            lacking: None,
        };
        // Given back at once, for whoever takes it.
        drop(reserved(SPARE)?);
        Ok(room)
    }

    /// More of the bad journal. If it has grown meanwhile, that takes more room.
    pub fn add(&mut self, piece: &[u8]) {
        match self.bad.try_reserve(piece.len()) {
            Ok(()) => self.bad.extend_from_slice(piece),
            Err(error) => self.lacking = Some(error),
        }
    }

    /// As the proved call mends it. No mended log is longer than the bad one.
    pub fn mend(mut self) -> Result<Result<Made, Refusal>, TryReserveError> {
        if let Some(error) = self.lacking {
            return Err(error);
        }
        fill(&mut self.new, self.bad.len())?;
        fill(&mut self.record, LONGEST_RECORD)?;
        let (bad, new) = (&self.bad, &mut self.new);
        let mended = mellansko::mend(bad, new, LONGEST_RECORD, &mut self.record);
        Ok(mended.map(|mended| {
            self.new.truncate(mended.length);
            Made {
                same: self.new == self.bad,
                new: self.new,
                skipped: mended.skipped,
            }
        }))
    }
}

fn reserved(length: usize) -> Result<Vec<u8>, TryReserveError> {
    let mut bytes = Vec::new();
    bytes.try_reserve_exact(length)?;
    Ok(bytes)
}

/// With as many zeros, for which there is room already unless the bad journal has grown.
fn fill(bytes: &mut Vec<u8>, length: usize) -> Result<(), TryReserveError> {
    bytes.try_reserve_exact(length)?;
    bytes.resize(length, 0);
    Ok(())
}

/// Why a journal of so many bytes is not mended, where the memory can't be had.
pub fn lacking(length: usize) -> String {
    format!(
        "there is not enough memory. Mending it takes {}: twice its length, and the longest \
         record. End other programs, or mend a copy on a computer that has more",
        bytes(2 * length + LONGEST_RECORD)
    )
}
