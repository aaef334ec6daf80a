// A part of it.
#[allow(dead_code)]
#[path = "../../mellansko/tests/random/mod.rs"]
mod random;

use random::Random;
use reference::{crc32c, crc32c_by_bytes, crc32c_extend, extend_by_bytes};
use reference::{mask, vectors, CRC32C_TABLE};

#[test]
fn agrees_with_the_published_vectors() {
    for vector in vectors::published() {
        assert_eq!(crc32c(&vector.bytes), vector.published, "{}", vector.name);
    }
}

/// Each byte at each of a few places, on a register that earlier bytes left, and a longer run.
#[test]
fn is_the_same_by_bytes() {
    for byte in 0..=255 {
        for message in [&[byte][..], &[0, byte], &[byte, 0xFF, byte], &[byte; 300]] {
            assert_eq!(crc32c_by_bytes(message), crc32c(message), "{message:02x?}");
        }
    }
    assert_eq!(crc32c_by_bytes(&[]), crc32c(&[]));
}

/// As docs/FORMAT.md, §2.4, has them, with the bits the other way round from this crate's division.
fn eight_shifts(mut register: u32) -> u32 {
    for _ in 0..8 {
        register = if register & 1 == 1 {
            (register >> 1) ^ 0x82F6_3B78
        } else {
            register >> 1
        };
    }
    register
}

/// What §2.7 says of number k. Number 128 is with the page's other figures, in tests/format.rs.
#[test]
fn has_the_eight_shifts_of_each_byte_in_its_table() {
    for (k, number) in (0..).zip(CRC32C_TABLE.iter()) {
        assert_eq!(*number, eight_shifts(k), "number {k}");
    }
}

/// What §2.7 says of the register after a byte.
#[test]
fn takes_eight_shifts_at_once_by_its_table() {
    let mut random = Random::new();
    for _ in 0..1_000 {
        let before = random.next() as u32;
        for byte in 0..=255 {
            let register = before ^ byte;
            let number = CRC32C_TABLE[(register & 0xFF) as usize];
            assert_eq!(
                (register >> 8) ^ number,
                eight_shifts(register),
                "{byte:#04x} after {before:#010x}, {random}"
            );
        }
    }
}

/// What §2.8 says of the register, word for word.
fn carried_on_by_shifts(checksum: u32, bytes: &[u8]) -> u32 {
    let after = |register: u32, byte: &u8| eight_shifts(register ^ u32::from(*byte));
    !bytes.iter().fold(!checksum, after)
}

/// Numbers to carry on from: none of the bits, all, each alone, and random ones.
fn numbers(random: &mut Random) -> Vec<u32> {
    let alone = (0..32).map(|bit| 1 << bit);
    let any = (0..1_000).map(|_| random.next() as u32);
    [0, u32::MAX].into_iter().chain(alone).chain(any).collect()
}

/// Random bytes A and B, of every two lengths below 40: so either may be none, and may be fewer or
/// more than the 32 bits of what is carried on from.
fn pairs(random: &mut Random) -> Vec<[Vec<u8>; 2]> {
    let lengths = (0..40).flat_map(|a| (0..40).map(move |b| [a, b]));
    lengths
        .map(|lengths| lengths.map(|length| random.bytes(length)))
        .collect()
}

#[test]
fn carries_on_as_the_register_does() {
    let mut random = Random::new();
    for number in numbers(&mut random) {
        let length = random.below(40);
        let bytes = random.bytes(length);
        assert_eq!(
            crc32c_extend(number, &bytes),
            carried_on_by_shifts(number, &bytes),
            "{bytes:02x?} from {number:#010x}, {random}"
        );
    }
}

/// Four bytes that are the checksum of what came before, lowest first, leave the same register
/// whatever came before. The catalogues of CRCs list it as the residue: it is 0xB798B438, before
/// its bits are inverted at the end.
#[test]
fn comes_to_the_residue_over_the_checksum_itself() {
    let good = !0xB798_B438_u32;
    let mut random = Random::new();
    for number in numbers(&mut random) {
        assert_eq!(
            crc32c_extend(number, &number.to_le_bytes()),
            good,
            "{number:#010x}, {random}"
        );
    }
}

/// The first of the four sentences of §2.8.
#[test]
fn carries_on_from_the_checksum_of_what_came_before() {
    let mut random = Random::new();
    for [a, b] in pairs(&mut random) {
        assert_eq!(
            crc32c_extend(crc32c(&a), &b),
            crc32c(&[&a[..], &b].concat()),
            "{a:02x?} and {b:02x?}, {random}"
        );
    }
}

/// The second.
#[test]
fn carries_on_from_zero_as_from_no_bytes() {
    assert_eq!(crc32c(&[]), 0);
    let mut random = Random::new();
    for length in 0..100 {
        let a = random.bytes(length);
        assert_eq!(crc32c_extend(0, &a), crc32c(&a), "{a:02x?}, {random}");
    }
}

/// The third.
#[test]
fn changes_nothing_over_no_bytes() {
    let mut random = Random::new();
    for number in numbers(&mut random) {
        assert_eq!(crc32c_extend(number, &[]), number, "{random}");
    }
}

/// The fourth.
#[test]
fn carries_on_over_one_and_then_the_other_as_over_both() {
    let mut random = Random::new();
    for [a, b] in pairs(&mut random) {
        let number = random.next() as u32;
        assert_eq!(
            crc32c_extend(crc32c_extend(number, &a), &b),
            crc32c_extend(number, &[&a[..], &b].concat()),
            "{a:02x?} and {b:02x?} from {number:#010x}, {random}"
        );
    }
}

/// No byte, and each byte at a few places, from whatever number.
#[test]
fn carries_on_the_same_by_bytes() {
    let mut random = Random::new();
    for byte in 0..=255 {
        for message in [&[][..], &[byte], &[byte, 0xFF, byte], &[byte; 300]] {
            let number = random.next() as u32;
            assert_eq!(
                extend_by_bytes(number, message),
                crc32c_extend(number, message),
                "{message:02x?} from {number:#010x}, {random}"
            );
        }
    }
}

/// The checksum of parts in a row, in as many goes.
fn in_goes(parts: &[&[u8]]) -> u32 {
    let carried_on = |checksum, part: &&[u8]| crc32c_extend(checksum, part);
    parts.iter().fold(0, carried_on)
}

#[test]
fn agrees_with_the_published_vectors_in_two_goes() {
    for vector in vectors::published() {
        for cut in 0..=vector.bytes.len() {
            let (a, b) = vector.bytes.split_at(cut);
            let name = vector.name;
            assert_eq!(in_goes(&[a, b]), vector.published, "{name}, cut at {cut}");
        }
    }
}

#[test]
fn agrees_with_the_published_vectors_in_three_goes() {
    for vector in vectors::published() {
        for again in 0..=vector.bytes.len() {
            let (before, c) = vector.bytes.split_at(again);
            for cut in 0..=again {
                let (a, b) = before.split_at(cut);
                let at = format!("{}, cut at {cut} and {again}", vector.name);
                assert_eq!(in_goes(&[a, b, c]), vector.published, "{at}");
            }
        }
    }
}

/// The mask's values in the format, rows M 9 and 10.
#[test]
fn masks_as_the_format_says() {
    assert_eq!(mask(0), 0xA282_EAD8);
    assert_eq!(mask(1), 0xA284_EAD8);
}

/// The proved program is held to this output, so it must be the one that this crate makes.
#[test]
fn made_the_stored_output() {
    let stored = include_str!("../../../crates/run_crc32c/stdout");
    assert_eq!(stored, vectors::listing());
}

/// After its ten lines of whole messages: the published checksum, wherever a vector is cut, and
/// wherever it is cut again.
#[test]
fn lists_the_published_checksums_at_every_cut() {
    let listing = vectors::listing();
    let mut lines = listing.lines().skip(10);
    for vector in vectors::published() {
        for cut in 0..=vector.bytes.len() {
            let (before, after) = vector.bytes.split_at(cut);
            let (first, whole) = (carried_on_by_shifts(0, before), vector.published);
            let same = after.len() + 1;
            let line = format!(
                "{first:08x} {whole:08x} {same} {}, cut at {cut}",
                vector.name
            );
            assert_eq!(lines.next(), Some(&line[..]));
        }
    }
    assert_eq!(lines.next(), None);
}
