//! A journal from its first byte to its end: what is found in it, one thing after the other.

use crate::fed::Fed;
use crate::gap::{Doubt, Place};
use mellansko::{Answer, NotRead, Record, Skip};
use std::io::Read;

pub enum Thing {
    Record(Place),
    /// A skipped range that is in doubt, or the torn tail.
    Doubt(Doubt),
    /// A skipped range that counts as no loss.
    EmptyStart(Skip),
}

pub struct Walk<'a, R> {
    fed: Fed<'a, R>,
    /// How many records were found.
    records: usize,
    /// The number of the one whose bytes are kept, and these once it is found.
    wanted: Option<usize>,
    kept: Option<Vec<u8>>,
    ended: bool,
}

impl<'a, R: Read> Walk<'a, R> {
    pub fn new(fed: Fed<'a, R>) -> Walk<'a, R> {
        Walk {
            fed,
            records: 0,
            wanted: None,
            kept: None,
            ended: false,
        }
    }

    /// One that keeps the bytes of the record with this number, from 1 on.
    pub fn keeping(number: usize, fed: Fed<'a, R>) -> Walk<'a, R> {
        Walk {
            wanted: Some(number),
            ..Walk::new(fed)
        }
    }

    /// What is found next; nothing, once the journal is at its end. Each piece that comes meanwhile
    /// is handed on.
    pub fn next(&mut self, mut piece: impl FnMut(&[u8])) -> Result<Option<Thing>, NotRead> {
        while !self.ended {
            let came = self.fed.came();
            if let Some(answer) = self.fed.certain() {
                let doubt = Doubt::by(&answer, came).map(Thing::Doubt);
                return Ok(match answer {
                    Answer::Record { record, bytes } => {
                        self.records += 1;
                        if self.wanted == Some(self.records) {
                            self.kept = Some(bytes.into_owned());
                        }
                        Some(self.place(&record))
                    }
                    Answer::Skip(skip) => doubt.or(Some(Thing::EmptyStart(skip))),
                    Answer::End(_) => {
                        self.ended = true;
                        doubt
                    }
                });
            }
            let came = self.fed.read()?;
            piece(came);
            if came.is_empty() {
                self.fed.end();
            }
        }
        Ok(None)
    }

    fn place(&self, record: &Record) -> Thing {
        Thing::Record(Place {
            number: self.records,
            start: record.start,
            end: record.end,
        })
    }

    /// The bytes of the record that was wanted, if it was found.
    pub fn kept(self) -> Option<Vec<u8>> {
        self.kept
    }

    /// How many bytes have come.
    pub fn came(&self) -> usize {
        self.fed.came()
    }
}
