//! What the tool is to say of a log, by the reference's answers.

use reference::feed::earliest;
use reference::log::{
    append, next, record_bytes, Appended, Next, Tail, BLOCK, LONGEST_LOG, LONGEST_RECORD,
};
use std::ops::Range;

/// The only reason that counts as no loss.
const EMPTY_START: u8 = 8;

/// The only one of a range in which no record has a byte (§14.5).
const DIRTY_TRAILER: u8 = 9;

/// All that the reference finds in a log, with the highest limit.
#[derive(Default)]
pub struct Found {
    pub length: usize,
    pub records: Vec<(Range<usize>, Vec<u8>)>,
    /// The ranges that are skipped and in doubt, and the reasons.
    pub skips: Vec<(Range<usize>, u8)>,
    /// Those that are skipped and not in doubt: they count as no loss (§13.5).
    pub empty_starts: Vec<Range<usize>>,
    pub torn: Option<usize>,
}

impl Found {
    pub fn in_log(log: &[u8]) -> Found {
        let mut found = Found {
            length: log.len(),
            ..Found::default()
        };
        each_answer(log, LONGEST_RECORD, |answer, bytes| match *answer {
            Next::Record { start, end, .. } => found.records.push((start..end, bytes.to_vec())),
            Next::Skip { start, end, reason } => match reason {
                EMPTY_START => found.empty_starts.push(start..end),
                _ => found.skips.push((start..end, reason)),
            },
            Next::End(Tail::Clean) => {}
            Next::End(Tail::Torn(start)) => found.torn = Some(start),
            Next::Refused { .. } => panic!("{answer:?} by the reference"),
        });
        found
    }

    pub fn is_whole(&self) -> bool {
        self.skips.is_empty() && self.torn.is_none()
    }

    pub fn status(&self) -> i32 {
        i32::from(!self.is_whole())
    }

    /// Every range in doubt.
    pub fn doubtful(&self) -> Vec<Range<usize>> {
        let skips = self.skips.iter().map(|(range, _)| range.clone());
        skips.chain(self.torn_tail()).collect()
    }

    /// Those in which records may have been.
    pub fn with_room_for_records(&self) -> Vec<Range<usize>> {
        let skips = self.skips.iter();
        let skips = skips.filter(|(_, reason)| *reason != DIRTY_TRAILER);
        let ranges = skips.map(|(range, _)| range.clone());
        ranges.chain(self.torn_tail()).collect()
    }

    /// Whether there is doubt, but in dirty trailers alone.
    pub fn is_only_dirty_trailers(&self) -> bool {
        !self.is_whole() && self.with_room_for_records().is_empty()
    }

    pub fn torn_tail(&self) -> Option<Range<usize>> {
        self.torn.map(|start| start..self.length)
    }

    pub fn blocks(&self) -> usize {
        self.length.div_ceil(BLOCK)
    }

    /// What is in doubt, by the readable record after which it comes.
    pub fn gaps(&self) -> Vec<Gap> {
        let reasons = self.skips.iter().map(|(_, reason)| Some(*reason));
        let reasons = reasons.chain([None]);
        let mut gaps: Vec<Gap> = Vec::new();
        for (range, reason) in self.doubtful().into_iter().zip(reasons) {
            let records = &self.records;
            let before = records.partition_point(|(record, _)| record.start < range.start);
            match gaps.last_mut() {
                Some(gap) if gap.before == before => gap.ranges.push((range, reason)),
                _ => gaps.push(Gap {
                    before,
                    ranges: vec![(range, reason)],
                }),
            }
        }
        gaps
    }
}

/// Ranges in doubt with no readable record between them.
pub struct Gap {
    /// How many readable records come before it.
    pub before: usize,
    /// The ranges with the reasons, of which a torn tail has none.
    pub ranges: Vec<(Range<usize>, Option<u8>)>,
}

impl Gap {
    pub fn bytes(&self) -> usize {
        self.ranges.iter().map(|(range, _)| range.len()).sum()
    }

    /// From its first byte to its last.
    pub fn span(&self) -> Range<usize> {
        self.ranges[0].0.start..self.ranges[self.ranges.len() - 1].0.end
    }
}

/// The answers from place 0 up to the end, or a refusal.
fn each_answer(log: &[u8], limit: usize, mut each: impl FnMut(&Next, &[u8])) {
    let mut buffer = vec![0; limit.min(LONGEST_RECORD)];
    let mut place = 0;
    loop {
        let answer = next(log, place, limit, &mut buffer);
        each(&answer, record_bytes(log, &buffer, &answer));
        if matches!(answer, Next::End(_) | Next::Refused { .. }) {
            return;
        }
        place = answer.place_after(log);
    }
}

/// What `dump` is to write.
pub fn dumped(log: &[u8], limit: usize) -> String {
    let mut lines = String::new();
    each_answer(log, limit, |answer, _| lines += &line(answer));
    lines
}

/// What `dump --long` is to write.
pub fn dumped_long(log: &[u8], limit: usize) -> String {
    let mut lines = String::new();
    each_answer(log, limit, |answer, _| lines += &long_line(answer));
    lines
}

/// The status of a `dump` that writes these lines up to the end.
pub fn status_of_dump(lines: &str) -> i32 {
    let skips = lines.lines().filter(|line| line.starts_with('S'));
    let doubt = skips.filter(|line| !line.ends_with(&format!(" {EMPTY_START}")));
    i32::from(doubt.count() > 0 || !lines.ends_with("E clean\n"))
}

/// What `dump` is to have written of a log of which this has come, and of which more may come.
pub fn certain(came: &[u8], limit: usize) -> String {
    earliest(came, limit).iter().map(line).collect()
}

/// What `dump --long` is to have written of it.
pub fn certain_long(came: &[u8], limit: usize) -> String {
    earliest(came, limit).iter().map(long_line).collect()
}

fn line(answer: &Next) -> String {
    match *answer {
        Next::Record {
            start, end, length, ..
        } => format!("R {start} {end} {length}\n"),
        Next::Skip { start, end, reason } => format!("S {start} {end} {reason}\n"),
        Next::End(Tail::Clean) => "E clean\n".into(),
        Next::End(Tail::Torn(start)) => format!("E torn {start}\n"),
        Next::Refused { number, .. } => format!("X {number}\n"),
    }
}

/// A record's has two numbers more: how many fragments it was read from, and where the last of them
/// starts (§16.1).
fn long_line(answer: &Next) -> String {
    let line = line(answer);
    match *answer {
        Next::Record {
            fragments,
            last_header,
            ..
        } => format!("{} {fragments} {last_header}\n", line.trim_end()),
        _ => line,
    }
}

/// A log of these records.
pub fn written<T: AsRef<[u8]>>(records: &[T]) -> Vec<u8> {
    let mut log = Vec::new();
    for record in records {
        add(&mut log, record.as_ref());
    }
    log
}

/// The log that what was found mends to: its records, as the reference writes them.
pub fn mended(found: &Found) -> Vec<u8> {
    let records: Vec<&Vec<u8>> = found.records.iter().map(|(_, bytes)| bytes).collect();
    written(&records)
}

/// Appends a record as the reference does.
pub fn add(log: &mut Vec<u8>, record: &[u8]) {
    let used = log.len();
    let room = used + record.len() + 1_000;
    log.resize(room.min(LONGEST_LOG), 0);
    let Appended::Mark(mark) = append(log, used, record) else {
        panic!("a record of {} bytes at {used} has no room", record.len());
    };
    log.truncate(mark);
}

/// The example of the format's text.
pub fn example() -> Vec<u8> {
    written(&[vec![b'A'; 1_000], vec![b'B'; 97_270], vec![b'C'; 8_000]])
}

/// A log of 512 blocks.
pub fn long_log() -> Vec<u8> {
    const LENGTH: usize = 512 * BLOCK;
    let mut log = Vec::new();
    let record: Vec<u8> = (0..262_144).map(|i| (i / 7) as u8).collect();
    while LENGTH - log.len() > 300_000 {
        add(&mut log, &record);
    }
    let headers = 7 * (LENGTH / BLOCK - log.len() / BLOCK);
    let rest = LENGTH - log.len() - headers;
    add(&mut log, &record[..rest]);
    assert_eq!(log.len(), LENGTH);
    log
}

/// A number with its thousands set apart by spaces, from five digits on.
pub fn grouped(number: usize) -> String {
    match number {
        0..10_000 => number.to_string(),
        _ => in_thousands(number),
    }
}

fn in_thousands(number: usize) -> String {
    match number {
        0..1_000 => number.to_string(),
        _ => format!("{} {:03}", in_thousands(number / 1_000), number % 1_000),
    }
}

/// So many of something, of which one is written without s.
pub fn count(number: usize, what: &str) -> String {
    let s = if number == 1 { "" } else { "s" };
    format!("{} {what}{s}", grouped(number))
}

/// The numbers in a line, in their order. Digits with nothing but a space between them are one
/// number, since that is how a person reads them; if they make none, two stand side by side.
pub fn numbers(line: &str) -> Vec<usize> {
    let mut numbers = Vec::new();
    let mut rest = line;
    while let Some(start) = rest.find(|c: char| c.is_ascii_digit()) {
        rest = &rest[start..];
        let end = rest.find(|c: char| !c.is_ascii_digit() && c != ' ');
        let (run, after) = rest.split_at(end.unwrap_or(rest.len()));
        let run = run.trim_end();
        let number: usize = run.replace(' ', "").parse().expect("a number");
        assert!(
            !run.contains(' ') || run == grouped(number),
            "{run:?} in: {line}"
        );
        numbers.push(number);
        rest = after;
    }
    numbers
}

/// The first and the last block of a range, counted from 1; once if they are the same.
pub fn block_numbers(range: &Range<usize>) -> Vec<usize> {
    let mut blocks = vec![range.start / BLOCK + 1, (range.end - 1) / BLOCK + 1];
    blocks.dedup();
    blocks
}

/// The text without codes for colours.
pub fn without_codes(text: &str) -> String {
    let mut pieces = text.split("\x1b[");
    let mut plain = pieces.next().unwrap_or_default().to_string();
    for piece in pieces {
        plain += piece.split_once('m').expect("a code ends with m").1;
    }
    plain
}

/// What `dump` lists of blocks of zeros.
pub fn blank_blocks(blocks: Range<usize>) -> String {
    blocks
        .map(|i| format!("S {} {} 2\n", i * BLOCK, (i + 1) * BLOCK))
        .collect()
}
