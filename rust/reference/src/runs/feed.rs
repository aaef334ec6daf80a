//! A log read as it comes: docs/FORMAT.md, §11. What the program over standard input writes.

use crate::feed::{begin, end, next, take, Block, State, Told};
use crate::log::{Next, Tail, BLOCK};
use std::io::{self, Read, Write};

/// The bytes of a piece. The last one may have fewer.
const PIECE: u64 = 32_768;
/// The limit on the length of a record.
const LIMIT: u64 = 24_576;

/// Reads a log from the input in pieces, and writes a line for each answer once it is certain. A
/// refusal ends it.
pub fn run(input: &mut impl Read, out: &mut impl Write) -> io::Result<()> {
    let mut state = begin(LIMIT).expect("within the limit on limits");
    let mut block = Box::new([0; BLOCK]);
    let mut buffer = vec![0; LIMIT as usize];
    loop {
        let mut piece = Vec::new();
        input.by_ref().take(PIECE).read_to_end(&mut piece)?;
        if piece.is_empty() {
            break;
        }
        let mut rest = &piece[..];
        while !rest.is_empty() {
            match take(&mut state, &mut block, rest) {
                Ok(taken) => {
                    // §11.5.
                    assert!(taken > 0, "room for a byte once nothing more is certain");
                    rest = &rest[taken..];
                }
                Err(number) => return writeln!(out, "X {number}"),
            }
            draw(&mut state, &block, &mut buffer, out)?;
        }
    }
    end(&mut state);
    draw(&mut state, &block, &mut buffer, out)
}

/// Writes the answers that are certain, up to the end.
fn draw(
    state: &mut State,
    block: &Block,
    buffer: &mut [u8],
    out: &mut impl Write,
) -> io::Result<()> {
    loop {
        let answer = match next(state, block, buffer) {
            Told::Answer(answer) => answer,
            Told::NotYet => return Ok(()),
            Told::Refused(number) => unreachable!("refused with {number}, from begin on"),
        };
        writeln!(out, "{}", line(answer))?;
        if matches!(answer, Next::End(_)) {
            return Ok(());
        }
    }
}

fn line(answer: Next) -> String {
    match answer {
        Next::Record {
            start, end, length, ..
        } => format!("R {start} {end} {length}"),
        Next::Skip { start, end, reason } => format!("S {start} {end} {reason}"),
        Next::End(Tail::Clean) => "E clean".to_string(),
        Next::End(Tail::Torn(start)) => format!("E torn {start}"),
        Next::Refused { .. } => unreachable!("the fed reader refuses by `Told::Refused`"),
    }
}
