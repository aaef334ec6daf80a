//! The runs whose output the proved programs are held to: lists of steps, each one call or a
//! reading to the end, and the line or lines that it writes; and a log read as it comes.

pub mod edges;
pub mod example;
pub mod feed;
pub mod reasons;
pub mod trailers;

use crate::crc32c_by_bytes;
use crate::log::{append, fragment, next, record_bytes, Appended, Next, Stored, Tail};
use std::fmt::{Display, Write};

/// The lengths of the arrays that a program has. Of the log and the buffer it lends parts. They do
/// not go by the longest record: a log, a record and a buffer of such lengths would be too much for
/// a stack of 8 MiB. The record array is as long as the longest record that is made in it.
const LOG: usize = 262_144;
const RECORD: usize = 97_270;
const BUFFER: usize = 262_144;

/// What log and buffer are filled with, so that bytes that a call left alone can be seen.
const LOG_FILL: u8 = 0xA5;
const BUFFER_FILL: u8 = 0x5A;

/// A program's arrays, and the lines it has written.
struct Run {
    log: Vec<u8>,
    record: Vec<u8>,
    buffer: Vec<u8>,
    lines: String,
}

/// Byte `i` of record number `number`.
fn record_byte(number: usize, i: usize) -> u8 {
    (i * 31 + i / 256 + number * 17) as u8
}

impl Run {
    fn new() -> Run {
        Run {
            log: vec![0; LOG],
            record: vec![0; RECORD],
            buffer: vec![0; BUFFER],
            lines: String::new(),
        }
    }

    fn line(&mut self, line: impl Display) {
        writeln!(self.lines, "{line}").expect("a String takes all");
    }

    /// Begins a scenario.
    fn scenario(&mut self, title: &str) {
        self.log.fill(LOG_FILL);
        self.buffer.fill(BUFFER_FILL);
        self.line(format!("# {title}"));
    }

    /// Ends a scenario: the checksums of the first `log` bytes of the log and of the whole buffer.
    fn sums(&mut self, log: usize) {
        let log = crc32c_by_bytes(&self.log[..log]);
        let buffer = crc32c_by_bytes(&self.buffer);
        self.line(format!("log crc32c {log:08x}"));
        self.line(format!("buffer crc32c {buffer:08x}"));
    }
}

/// Steps that change bytes, and write no line.
impl Run {
    /// Puts `bytes` bytes of record number `number` into the record array.
    fn make_record(&mut self, number: usize, bytes: usize) {
        for i in 0..bytes {
            self.record[i] = record_byte(number, i);
        }
    }

    /// Makes the first `bytes` bytes of the log the record, and fills the log anew.
    fn make_record_of_log(&mut self, bytes: usize) {
        self.record[..bytes].copy_from_slice(&self.log[..bytes]);
        self.log.fill(LOG_FILL);
    }

    /// Puts a fragment of any type with its right checksum at a place of the log; its data are
    /// `bytes` bytes of record number `number`.
    fn fragment(&mut self, place: usize, kind: u8, number: usize, bytes: usize) {
        self.make_record(number, bytes);
        let fragment = fragment(kind, &self.record[..bytes]);
        self.log[place..place + fragment.len()].copy_from_slice(&fragment);
    }

    /// Writes zeros into the log.
    fn zeros(&mut self, place: usize, bytes: usize) {
        self.log[place..place + bytes].fill(0);
    }

    /// Changes a byte of the log by xor.
    fn change(&mut self, place: usize, by: u8) {
        self.log[place] ^= by;
    }
}

/// Steps that make calls. The first `log` bytes of the log are lent.
impl Run {
    /// Appends record number `number` of `bytes` bytes.
    fn append(&mut self, log: usize, mark: usize, number: usize, bytes: usize) {
        self.make_record(number, bytes);
        self.append_made(log, mark, bytes);
    }

    /// Appends the first `bytes` bytes of the record array.
    fn append_made(&mut self, log: usize, mark: usize, bytes: usize) {
        let answer = append(&mut self.log[..log], mark, &self.record[..bytes]);
        self.line(append_line(bytes, mark, answer));
    }

    /// Appends a record of zeros, which has an array of its own: one that the record array is too
    /// short for.
    fn append_zeros(&mut self, log: usize, mark: usize, bytes: usize) {
        let answer = append(&mut self.log[..log], mark, &vec![0; bytes]);
        self.line(append_line(bytes, mark, answer));
    }

    /// Reads the next thing, and asks for its bytes if it is a record.
    fn next(&mut self, log: usize, place: usize, limit: usize, buffer: usize) -> Next {
        let (log, buffer) = (&self.log[..log], &mut self.buffer[..buffer]);
        let answer = next(log, place, limit, buffer);
        let crc = crc32c_by_bytes(record_bytes(log, buffer, &answer));
        self.line(answer_line(answer, crc));
        answer
    }

    /// Reads from place 0 to the end, with the whole buffer lent.
    fn read(&mut self, log: usize, limit: usize) {
        let mut place = 0;
        loop {
            match self.next(log, place, limit, BUFFER) {
                Next::Record { end, .. } | Next::Skip { end, .. } => place = end,
                Next::End(_) | Next::Refused { .. } => return,
            }
        }
    }

    /// Asks for an answer's bytes, in the first `log` bytes of the log and `buffer` of the buffer.
    fn bytes(&mut self, log: usize, buffer: usize, answer: Next) {
        let bytes = record_bytes(&self.log[..log], &self.buffer[..buffer], &answer);
        let (length, crc) = (bytes.len(), crc32c_by_bytes(bytes));
        self.line(format!("bytes {length} crc32c {crc:08x}"));
    }
}

fn append_line(bytes: usize, mark: usize, answer: Appended) -> String {
    let answer = match answer {
        Appended::Mark(mark) => format!("mark {mark}"),
        Appended::Refused { number, given } => format!("refused {number} {given}"),
    };
    format!("append {bytes} bytes at {mark}: {answer}")
}

fn answer_line(answer: Next, crc: u32) -> String {
    match answer {
        Next::Record {
            start,
            end,
            length,
            stored,
            fragments,
            last_header,
        } => {
            let stored = match stored {
                Stored::Whole(place) => format!("whole {place}"),
                Stored::Gathered => "gathered".to_string(),
            };
            let how = format!("{stored} fragments {fragments} last {last_header}");
            format!("record {start} {end} {length} {how} crc32c {crc:08x}")
        }
        Next::Skip { start, end, reason } => format!("skip {start} {end} {reason}"),
        Next::End(Tail::Clean) => "end clean".to_string(),
        Next::End(Tail::Torn(place)) => format!("end torn {place}"),
        Next::Refused { number, given } => format!("refused {number} {given}"),
    }
}
