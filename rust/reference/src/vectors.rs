//! Published test vectors of CRC32C, and the output that the proved program over them is held to.

use crate::{crc32c, crc32c_extend, mask};
use std::fmt::Write;

/// What is summed, and the checksum that its document publishes.
pub struct Vector {
    pub name: &'static str,
    pub bytes: Vec<u8>,
    pub published: u32,
}

/// RFC 3720, appendix B.4, which prints each CRC as its four bytes, lowest first; and "123456789",
/// whose CRC the catalogues of CRCs list as the check value. docs/DECISIONS.md says how these
/// figures were come by and what they were compared with.
pub fn published() -> Vec<Vector> {
    let vector = |name, bytes, crc| Vector {
        name,
        bytes,
        published: u32::from_le_bytes(crc),
    };
    vec![
        vector("32 bytes of 00", vec![0; 32], [0xaa, 0x36, 0x91, 0x8a]),
        vector("32 bytes of FF", vec![0xff; 32], [0x43, 0xab, 0xa8, 0x62]),
        vector(
            "00 rising to 1F",
            (0..32).collect(),
            [0x4e, 0x79, 0xdd, 0x46],
        ),
        vector(
            "1F falling to 00",
            (0..32).rev().collect(),
            [0x5c, 0xdb, 0x3f, 0x11],
        ),
        vector(
            "SCSI read command",
            read_command(),
            [0x56, 0x3a, 0x96, 0xd9],
        ),
        vector("123456789", b"123456789".to_vec(), [0x83, 0x92, 0x06, 0xe3]),
    ]
}

/// The 48 bytes of an iSCSI SCSI Read (10) Command, as twelve words.
fn read_command() -> Vec<u8> {
    let words: [u32; 12] = [
        0x01c0_0000,
        0x0000_0000,
        0x0000_0000,
        0x0000_0000,
        0x1400_0000,
        0x0000_0400,
        0x0000_0014,
        0x0000_0018,
        0x2800_0000,
        0x0000_0000,
        0x0200_0000,
        0x0000_0000,
    ];
    words.iter().flat_map(|word| word.to_be_bytes()).collect()
}

/// What the program `run_crc32c` writes: a line for each vector, and for "123456789" after each
/// type byte of the log format; then one for each place at which each vector can be cut.
pub fn listing() -> String {
    let mut lines = String::new();
    let mut line = |name: &str, bytes: &[u8]| {
        let crc = crc32c(bytes);
        writeln!(lines, "{crc:08x} {:08x} {name}", mask(crc)).expect("a String takes all");
    };
    for vector in published() {
        line(vector.name, &vector.bytes);
    }
    for kind in 1..=4u8 {
        line(
            &format!("type {kind}, 123456789"),
            &[&[kind], &b"123456789"[..]].concat(),
        );
    }
    for vector in published() {
        let cuts = 0..=vector.bytes.len();
        lines.extend(cuts.map(|cut| cut_line(&vector, cut)));
    }
    lines
}

/// The line of a vector cut at a place: the checksum of the bytes before the cut, what carrying on
/// from it over the others gives, and at how many places the others can be cut again for the same.
fn cut_line(vector: &Vector, cut: usize) -> String {
    let (name, bytes) = (vector.name, &vector.bytes[..]);
    let first = crc32c(&bytes[..cut]);
    let whole = crc32c_extend(first, &bytes[cut..]);
    let in_three = |again: usize| {
        let goes = [&bytes[..cut], &bytes[cut..again], &bytes[again..]];
        goes.into_iter().fold(0, crc32c_extend)
    };
    let same = (cut..=bytes.len())
        .filter(|again| in_three(*again) == whole)
        .count();
    format!("{first:08x} {whole:08x} {same} {name}, cut at {cut}\n")
}
