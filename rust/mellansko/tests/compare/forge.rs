//! Sound fragments put into a log in the place of others.

use super::{make, odd};
use crate::random::Random;
use reference::log::{fragment, BLOCK, FIRST, FULL, HEADER, LAST, MIDDLE};

/// A fragment of one of these types and of a length that may be the old one, around the data that
/// are there.
pub fn forge(random: &mut Random, log: &mut [u8], place: usize, kinds: &[u8]) {
    let room = (BLOCK - place % BLOCK).min(log.len() - place) - HEADER;
    let old = usize::from(u16::from_le_bytes([log[place + 4], log[place + 5]]));
    let any = random.below(room + 1);
    let length = make::pick(random, &[old.min(room), any, room, 0]);
    let kind = make::pick(random, kinds);
    let data = log[place + HEADER..place + HEADER + length].to_vec();
    overwrite(log, place, &fragment(kind, &data));
}

/// An empty start in a fragment's place: an empty FIRST, empty MIDDLEs or none, and then mostly a
/// FULL or FIRST.
pub fn start_empty(random: &mut Random, log: &mut [u8]) {
    let headers = make::headers(log);
    if headers.is_empty() {
        return;
    }
    let mut place = make::pick(random, &headers);
    let kinds = [FIRST, MIDDLE, MIDDLE];
    for kind in &kinds[..1 + random.below(3)] {
        overwrite(log, place, &fragment(*kind, b""));
        place += HEADER;
        let left = BLOCK - place % BLOCK;
        if left < HEADER {
            place += left;
        }
        if place + HEADER > log.len() {
            return;
        }
    }
    let kinds = [FULL, FULL, FULL, FIRST, FIRST, FIRST, LAST, 5];
    forge(random, log, place, &kinds);
}

/// A sound fragment in the place of another that ends in the last bytes of its block, and a trailer
/// after it.
pub fn end_in_a_trailer(random: &mut Random, log: &mut [u8]) {
    let bytes = 1 + random.below(HEADER - 1);
    let end = |place: usize| (place / BLOCK + 1) * BLOCK - bytes;
    let mut headers = make::headers(log);
    headers.retain(|&place| place + HEADER <= end(place) && end(place) <= log.len());
    if headers.is_empty() {
        return;
    }
    let place = make::pick(random, &headers);
    let data = log[place + HEADER..end(place)].to_vec();
    let kind = make::pick(random, &[FULL, FIRST, MIDDLE, LAST]);
    overwrite(log, place, &fragment(kind, &data));
    overwrite(log, end(place), &odd::trailer(random, bytes));
}

/// Puts bytes at a place, as many of them as the log has there.
pub fn overwrite(log: &mut [u8], place: usize, bytes: &[u8]) {
    let length = bytes.len().min(log.len() - place);
    log[place..place + length].copy_from_slice(&bytes[..length]);
}
