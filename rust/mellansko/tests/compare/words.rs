//! The reference's answers as the ten words of the C interface.

use reference::log::{Appended, Next, Stored, Tail};
use std::array;

pub fn of_appended(answer: Appended) -> [u64; 10] {
    match answer {
        Appended::Mark(mark) => words(&[0, mark]),
        Appended::Refused { number, given } => words(&[1, usize::from(number), given]),
    }
}

pub fn of_next(answer: Next, log: &[u8]) -> [u64; 10] {
    let on = answer.place_after(log);
    match answer {
        Next::Record {
            start,
            end,
            length,
            stored,
            fragments,
            last_header,
        } => {
            let (gathered, place) = match stored {
                Stored::Whole(place) => (0, place),
                Stored::Gathered => (1, 0),
            };
            words(&[
                0,
                start,
                end,
                length,
                gathered,
                place,
                on,
                fragments,
                last_header,
            ])
        }
        Next::Skip { start, end, reason } => words(&[1, start, end, usize::from(reason), 0, 0, on]),
        Next::End(Tail::Clean) => words(&[2, 0, 0, 0, 0, 0, on]),
        Next::End(Tail::Torn(place)) => words(&[2, 1, place, 0, 0, 0, on]),
        Next::Refused { number, given } => words(&[3, usize::from(number), given]),
    }
}

/// Words without a meaning are 0 (docs/FORMAT.md, §10.1).
fn words(named: &[usize]) -> [u64; 10] {
    array::from_fn(|i| named.get(i).map_or(0, |&word| word as u64))
}

/// The bytes of the record that an answer's words speak of; none if it is no record.
pub fn bytes<'a>(answer: &[u64; 10], log: &'a [u8], buffer: &'a [u8]) -> &'a [u8] {
    let [0, _, _, length, gathered, place, ..] = answer.map(|word| word as usize) else {
        return &[];
    };
    match gathered {
        0 => &log[place..place + length],
        _ => &buffer[..length],
    }
}
