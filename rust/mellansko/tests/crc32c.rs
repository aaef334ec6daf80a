//! The proved checksum against the independent one, from nothing before and from any number.

mod random;

use mellansko::{append, crc32c, mask, BLOCK};
use random::Random;
use reference::vectors;

/// What carrying on from a number comes to, by both.
fn compare(before: u32, bytes: &[u8], what: &str) -> u32 {
    let ours = crc32c(before, bytes);
    let theirs = reference::crc32c_extend(before, bytes);
    assert_eq!(ours, theirs, "checksum of {what}, from {before:#010x}");
    assert_eq!(
        mask(ours),
        reference::mask(theirs),
        "mask of {ours:#010x}, the checksum of {what}, from {before:#010x}"
    );
    ours
}

/// The same by a quicker way of the independent one, for parts of many bytes.
fn compare_by_bytes(before: u32, bytes: &[u8], what: &str) -> u32 {
    let ours = crc32c(before, bytes);
    let theirs = reference::extend_by_bytes(before, bytes);
    assert_eq!(ours, theirs, "checksum of {what}, from {before:#010x}");
    ours
}

/// What parts in a row come to, each carried on from that of the parts before it.
fn in_goes(parts: &[&[u8]], what: &str) -> u32 {
    parts
        .iter()
        .fold(0, |before, part| compare(before, part, what))
}

/// Numbers to carry on from: none of the bits, all, each alone, all but each, and random ones. With
/// all but one the register has that one alone.
fn numbers(random: &mut Random, count: usize) -> Vec<u32> {
    let alone = (0..32).map(|bit| 1 << bit);
    let all_but = alone.clone().map(|bit: u32| !bit);
    let any = (0..count).map(|_| random.next() as u32);
    let edges = [0, u32::MAX].into_iter().chain(alone).chain(all_but);
    edges.chain(any).collect()
}

/// Every scale comes up: a length below 2, below 4, .. below 2^20. The last is 1 MiB.
fn lengths(random: &mut Random) -> Vec<usize> {
    let below = (0..40).map(|turn| random.below(1 << (turn % 20 + 1)));
    below.chain([1 << 20]).collect()
}

#[test]
fn on_the_published_vectors() {
    for vector in vectors::published() {
        let whole = compare(0, &vector.bytes, vector.name);
        assert_eq!(whole, vector.published, "{}", vector.name);
    }
}

/// At either end, too: then a part has no bytes.
#[test]
fn on_the_published_vectors_cut_in_two_at_every_place() {
    for vector in vectors::published() {
        for cut in 0..=vector.bytes.len() {
            let (a, b) = vector.bytes.split_at(cut);
            let what = format!("{}, cut at {cut}", vector.name);
            assert_eq!(in_goes(&[a, b], &what), vector.published, "{what}");
        }
    }
}

/// Twice at the same place, too.
#[test]
fn on_the_published_vectors_cut_in_three_at_every_two_places() {
    for vector in vectors::published() {
        for again in 0..=vector.bytes.len() {
            let (before, c) = vector.bytes.split_at(again);
            for cut in 0..=again {
                let (a, b) = before.split_at(cut);
                let what = format!("{}, cut at {cut} and {again}", vector.name);
                assert_eq!(in_goes(&[a, b, c], &what), vector.published, "{what}");
            }
        }
    }
}

/// At each place within a word, since a slice may begin anywhere.
fn compare_every_length(before: u32, random: &mut Random) {
    let bytes = random.bytes(308);
    for length in 0..=300 {
        for start in 0..8 {
            compare(
                before,
                &bytes[start..start + length],
                &format!("{length} bytes from {start}, {random}"),
            );
        }
    }
}

#[test]
fn on_every_length_from_0_to_300() {
    compare_every_length(0, &mut Random::new());
}

#[test]
fn on_every_length_from_0_to_300_after_many_numbers() {
    let mut random = Random::new();
    for number in numbers(&mut random, 40) {
        compare_every_length(number, &mut random);
    }
}

/// A checksum that goes by a table of 256 numbers needs each of them here.
#[test]
fn on_all_messages_of_up_to_2_bytes() {
    compare(0, &[], "no bytes");
    for first in 0..=255 {
        compare(0, &[first], &format!("{first:#04x}"));
        for second in 0..=255 {
            let what = format!("{first:#04x} and {second:#04x}");
            compare(0, &[first, second], &what);
        }
    }
}

/// Which number of a table a byte needs depends on what came before.
#[test]
fn on_each_byte_after_many_numbers() {
    let mut random = Random::new();
    for number in numbers(&mut random, 1_000) {
        for byte in 0..=255 {
            compare(number, &[byte], &format!("{byte:#04x}, {random}"));
        }
    }
}

/// Wherever the slice stands that has none.
#[test]
fn on_no_bytes_which_give_the_number_back() {
    let mut random = Random::new();
    let bytes = random.bytes(8);
    for number in numbers(&mut random, 10_000) {
        for none in [&[][..], &bytes[..0], &bytes[3..3], &bytes[8..]] {
            let same = compare(number, none, &format!("no bytes, {random}"));
            assert_eq!(same, number, "{random}");
        }
    }
}

/// A loop may treat the bytes at either end apart from the rest, and may take several at a time.
#[test]
fn on_each_byte_at_the_first_a_middle_and_the_last_place() {
    let mut random = Random::new();
    for length in [3, 4, 7, 8, 32, 33] {
        for place in [0, length / 2, length - 1] {
            let mut bytes = random.bytes(length);
            for byte in 0..=255 {
                bytes[place] = byte;
                compare(0, &bytes, &format!("{bytes:02x?}, {random}"));
            }
        }
    }
}

#[test]
fn on_random_inputs_up_to_1_mib() {
    let mut random = Random::new();
    for length in lengths(&mut random) {
        let bytes = random.bytes(length);
        compare(0, &bytes, &format!("{length} bytes, {random}"));
    }
}

/// Cuts bytes into up to 300 parts. Where two cuts fall on the same place, the part between them
/// has no bytes.
fn cut<'a>(bytes: &'a [u8], random: &mut Random) -> Vec<&'a [u8]> {
    let count = random.below(300);
    let place = |_| random.below(bytes.len() + 1);
    let mut cuts: Vec<usize> = (0..count).map(place).collect();
    cuts.extend([0, bytes.len()]);
    cuts.sort();
    cuts.windows(2)
        .map(|ends| &bytes[ends[0]..ends[1]])
        .collect()
}

/// Each part is compared by bytes, and what they come to with the division of all of it.
#[test]
fn on_random_inputs_up_to_1_mib_in_many_parts() {
    let mut random = Random::new();
    for length in lengths(&mut random) {
        let bytes = random.bytes(length);
        let what = format!("{length} bytes or a part of them, {random}");
        for number in [0, random.next() as u32] {
            let carried_on = |before, part| compare_by_bytes(before, part, &what);
            let parts = cut(&bytes, &mut random);
            let whole = parts.into_iter().fold(number, carried_on);
            assert_eq!(whole, compare(number, &bytes, &what), "{what}");
        }
    }
}

/// The type and then the data, as their header stores it: of a record in one fragment, and of one
/// that has the other three types.
#[test]
fn on_each_fragment_that_append_writes() {
    let mut random = Random::new();
    let mut log = vec![0; 4 * BLOCK];
    let mut mark = 0;
    for length in [100, 3 * BLOCK] {
        mark = append(&mut log, mark, &random.bytes(length)).expect("room for it");
    }
    let (mut rest, mut types) = (&log[..mark], Vec::new());
    while let Some((header, after)) = rest.split_first_chunk::<7>() {
        let length = u16::from_le_bytes([header[4], header[5]]);
        let (data, after) = after.split_at(usize::from(length));
        let sum = in_goes(&[&header[6..], data], &format!("a fragment, {random}"));
        assert_eq!(header[..4], mask(sum).to_le_bytes(), "{random}");
        types.push(header[6]);
        rest = after;
    }
    assert_eq!(types, [1, 2, 3, 3, 4]);
}

#[test]
fn on_masks_of_every_kind_of_number() {
    let mut random = Random::new();
    let edges = [
        0,
        1,
        0x7fff,
        0x8000,
        0x1_ffff,
        0x5d7d_1527,
        0x5d7d_1528,
        0x7fff_ffff,
        0x8000_0000,
        u32::MAX,
    ];
    let bits = (0..32).map(|bit| 1 << bit);
    let numbers = (0..10_000)
        .map(|_| random.next() as u32)
        .collect::<Vec<_>>();
    for number in edges.into_iter().chain(bits).chain(numbers) {
        assert_eq!(
            mask(number),
            reference::mask(number),
            "mask of {number:#010x}, {random}"
        );
    }
}
