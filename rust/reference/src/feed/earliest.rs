//! The answers that are certain, by their definition (§11.12) and not by the rule of §11.8: what
//! the readings of all logs that begin with what has come have in common. The fed reader has no
//! part in it.
//!
//! There are too many such logs, and a few stand for them all. Let T be the true list, S the one
//! that some of the logs have in common, and F what the fed reader has answered. Fewer logs have
//! more in common, so T is a beginning of S. And F is a beginning of T as long as the fed reader's
//! answers are those of the whole log, whatever comes: then the readings of all those logs begin
//! with F. So where F and S are the same, T is the same as well, whichever logs were taken for S.
//! Two logs are enough in fact: the one that ends here has every answer that can be certain, and
//! a byte more takes those away whose range ends with the log. So it is with a trailer: where it is
//! zeros so far the log that ends here has no answer for it, though the next byte may make it dirty
//! (§14.6); and where it is dirty its own range grows with the byte, while that of the record that
//! it interrupts does not. The others are there to show it if the fed reader answers too early.

use super::reading;
use super::sound::sound;
use crate::log::{block_end, fragment, Next, HEADER, LAST, LONGEST_LOG, LONGEST_RECORD};

/// The longest list of answers, no end among them, with which the readings of all logs begin that
/// begin with `came`.
pub fn earliest(came: &[u8], limit: usize) -> Vec<Next> {
    let mut common = reading(came, limit);
    common.pop();
    for more in continuations(came) {
        let log = [came, &more].concat();
        let other = reading(&log, limit);
        let same = common
            .iter()
            .zip(&other)
            .take_while(|(one, two)| one == two);
        common.truncate(same.count());
    }
    common
}

/// What may still come: some of all that may. Every log's length is within the limit (§1.6).
pub fn continuations(came: &[u8]) -> Vec<Vec<u8>> {
    let (trailer, begun) = at_hand(came);
    let mut all = vec![Vec::new()];
    all.extend(bytes_alone());
    all.extend(fillings(came.len()));
    all.extend(dirty(trailer));
    all.extend(completions(came.len(), trailer, begun));
    all.retain(|more| came.len() + more.len() <= LONGEST_LOG);
    all
}

/// One byte.
fn bytes_alone() -> impl Iterator<Item = Vec<u8>> {
    [0, 1, 2, 4, 7, 0x80, 0xFF]
        .into_iter()
        .map(|byte| vec![byte])
}

/// Zeros, ones and mixed bytes: a few of them, as many as end with a header or before it does, and
/// up to the block's end, a byte before it and after it.
fn fillings(came: usize) -> Vec<Vec<u8>> {
    let left = block_end(came) - came;
    let mixed: Vec<u8> = (0..=250).map(|i: u8| i.wrapping_mul(73) ^ 41).collect();
    let mixed = mixed.repeat((left + HEADER) / mixed.len() + 1);
    let mut all = Vec::new();
    for length in [2, 6, 7, 8, left - 1, left, left + 1, left + HEADER] {
        all.push(vec![0; length]);
        all.push(vec![0xFF; length]);
        all.push(mixed[..length].to_vec());
    }
    all
}

/// The rest of a trailer with each of its bytes dirty in turn: up to that byte, up to the block's
/// end, and with a fragment after it that would complete a record.
fn dirty(trailer: usize) -> Vec<Vec<u8>> {
    let mut all = Vec::new();
    for place in 0..trailer {
        let mut rest = vec![0; trailer];
        rest[place] = 1;
        all.push(rest[..=place].to_vec());
        all.push([&rest[..], &fragment(LAST, &[])].concat());
        all.push(rest);
    }
    all
}

/// The fragment at hand made whole, after a trailer of zeros if one has to come before it: sound
/// where that can be, and spoilt in its last byte; with nothing after it, and with a byte.
fn completions(came: usize, trailer: usize, begun: &[u8]) -> Vec<Vec<u8>> {
    let place = came + trailer - begun.len();
    let room = block_end(place) - place - HEADER;
    let mut all = Vec::new();
    for kind in [0, 1, 2, 3, 4, 5, 0xFF] {
        for length in lengths(begun, room) {
            let Some(fragment) = sound(begun, kind, length) else {
                continue;
            };
            let more = [&vec![0; trailer], &fragment[begun.len()..]].concat();
            if let Some(last) = more.len().checked_sub(1) {
                let mut spoilt = more.clone();
                spoilt[last] ^= 1;
                all.push(spoilt);
            }
            all.push([&more[..], &[0]].concat());
            all.push(more);
        }
    }
    all
}

/// What has come of the fragment that is begun and unfinished, and how many bytes of a trailer have
/// to come before it. If none is begun the next one is at hand.
fn at_hand(came: &[u8]) -> (usize, &[u8]) {
    let mut place = tail(came);
    loop {
        let left = block_end(place) - place;
        if left < HEADER {
            if came.len() < place + left {
                return (place + left - came.len(), &[]);
            }
            place += left;
            continue;
        }
        let begun = &came[place..];
        let [_, _, _, _, low, high, _, data @ ..] = begun else {
            return (0, begun);
        };
        let length = usize::from(u16::from_le_bytes([*low, *high]));
        if length > data.len() || length > left - HEADER {
            return (0, begun);
        }
        place += HEADER + length;
    }
}

/// The place that a reading of the log that ends here goes on from: what has come from there on is
/// undecided. It is read with a limit that no record in it is over, since none has more bytes than
/// the log; and with no higher one, since a reading lends a buffer as long as its limit.
fn tail(came: &[u8]) -> usize {
    let answers = reading(came, came.len().min(LONGEST_RECORD));
    answers.last().map_or(0, |end| end.place_after(came))
}

/// Lengths for the fragment at hand that its room has space for: short ones, those that fill a
/// small room or nearly, and those that go with what has come of the length.
fn lengths(begun: &[u8], room: usize) -> Vec<usize> {
    let mut all = vec![0, 1, 4, 5, 12];
    if room < 100 {
        all.extend([room.saturating_sub(1), room]);
    }
    if let [_, _, _, _, low, high @ ..] = begun {
        let high = high.first().copied().unwrap_or(0);
        all.push(usize::from(u16::from_le_bytes([*low, high])));
    }
    all.retain(|length| *length <= room);
    all.sort_unstable();
    all.dedup();
    all
}
