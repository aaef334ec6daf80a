//! Fragments that are sound and begin with given bytes: a forger's work.

use crate::log::{fragment, HEADER};
use crate::{crc32c_by_bytes, mask};
use std::array;

/// A sound fragment of this type and length that begins with these bytes. None if they say another
/// type or length, or if too little of the data is still to come: four bytes bring about any
/// checksum, and one is tried in all its values.
pub fn sound(begun: &[u8], kind: u8, length: usize) -> Option<Vec<u8>> {
    let mut made = fragment(kind, &vec![0; length]);
    if begun.is_empty() {
        return Some(made);
    }
    let fields = made[4..HEADER].to_vec();
    made.get_mut(..begun.len())?.copy_from_slice(begun);
    if made[4..HEADER] != fields {
        return None;
    }
    let free = made.len() - begun.len().max(HEADER);
    if free >= 4 {
        force(&mut made);
        return Some(made);
    }
    if is_sound(&made) {
        return Some(made);
    }
    if free == 0 {
        return None;
    }
    let last = made.len() - 1;
    (0..=255).find_map(|byte| {
        made[last] = byte;
        is_sound(&made).then(|| made.clone())
    })
}

/// The checksum that is stored, and the masked one of type and data.
fn sums(fragment: &[u8]) -> (u32, u32) {
    let stored = u32::from_le_bytes([fragment[0], fragment[1], fragment[2], fragment[3]]);
    (stored, mask(crc32c_by_bytes(&fragment[6..])))
}

fn is_sound(fragment: &[u8]) -> bool {
    let (stored, right) = sums(fragment);
    stored == right
}

/// Sets the last four bytes so that the stored checksum is right. A bit that is changed there
/// changes the checksum by the same bits whatever the others are, since a CRC is a remainder; so it
/// is 32 equations in 32 unknown bits.
fn force(fragment: &mut [u8]) {
    let crc = |fragment: &[u8]| crc32c_by_bytes(&fragment[6..]);
    let last = fragment.len() - 4;
    fragment[last..].fill(0);
    let (stored, _) = sums(fragment);
    let zeros = crc(fragment);
    let effects = array::from_fn(|bit| {
        fragment[last..].copy_from_slice(&(1u32 << bit).to_le_bytes());
        crc(fragment) ^ zeros
    });
    let bits = solve(&effects, unmask(stored) ^ zeros).expect("four bytes bring about any CRC");
    fragment[last..].copy_from_slice(&bits.to_le_bytes());
    assert!(is_sound(fragment));
}

/// The inverse of the mask (§2.5).
fn unmask(masked: u32) -> u32 {
    masked.wrapping_sub(0xA282_EAD8).rotate_left(15)
}

/// Which of the effects, taken together by xor, make what is wanted: as the bits of a number.
fn solve(effects: &[u32; 32], wanted: u32) -> Option<u32> {
    // By the highest bit: an effect that has it, and of which of the given ones it is made.
    let mut by_bit = [(0u32, 0u32); 32];
    for (i, effect) in effects.iter().enumerate() {
        let (rest, made) = reduced(&by_bit, *effect);
        if rest != 0 {
            by_bit[31 - rest.leading_zeros() as usize] = (rest, made ^ 1 << i);
        }
    }
    let (rest, made) = reduced(&by_bit, wanted);
    (rest == 0).then_some(made)
}

/// What is left of a number once all that can be taken off it is taken off, and of which effects
/// that was made.
fn reduced(by_bit: &[(u32, u32); 32], number: u32) -> (u32, u32) {
    let (mut rest, mut made) = (number, 0);
    for bit in (0..32).rev() {
        if rest >> bit & 1 == 1 && by_bit[bit].0 != 0 {
            rest ^= by_bit[bit].0;
            made ^= by_bit[bit].1;
        }
    }
    (rest, made)
}
