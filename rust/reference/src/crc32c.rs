//! CRC32C as RFC 3720, section 12.1, puts it: the remainder of a division of polynomials, one bit
//! after the other. Polynomials are written the ordinary way round, the highest power first.

use std::array;
use std::sync::LazyLock;

/// The generator polynomial 0x11EDC6F41, whose x^32 is left out: it cancels the bit that leaves.
const GENERATOR: u32 = 0x1EDC_6F41;

/// The CRC32C of a message: carried on from 0, the checksum of no bytes. Its 32 bits, inverted,
/// complement the first 32 of the message, as the RFC has it, so that zeros in front count.
pub fn crc32c(message: &[u8]) -> u32 {
    crc32c_extend(0, message)
}

/// The CRC32C carried on from a checksum over a message (docs/FORMAT.md, §2.8).
///
/// What came before stands in front of the message: its polynomial is multiplied by x once for each
/// bit of the message. All that the division needs of it is its remainder, which is multiplied
/// likewise; so the remainder's 32 bits fall on the first 32 of the message times x^32.
pub fn crc32c_extend(checksum: u32, message: &[u8]) -> u32 {
    // What the last line makes of a remainder is undone by doing it again.
    let before = (!checksum).reverse_bits();
    let mut remainder: u32 = 0;
    for (place, bit) in times_x32(message).enumerate() {
        let falls_on = place < 32 && (before << place) >> 31 == 1;
        let leaves = remainder >> 31 == 1;
        remainder = (remainder << 1) | u32::from(bit ^ falls_on);
        if leaves {
            remainder ^= GENERATOR;
        }
    }
    // The remainder, complemented, is the CRC. Its first bit is the lowest one of the first byte,
    // and the first byte the lowest one of the number.
    (!remainder).reverse_bits()
}

/// The coefficients of the message's polynomial multiplied by x^32, the highest power first: the
/// bits of each byte from the lowest to the highest, then 32 zeros.
fn times_x32(message: &[u8]) -> impl Iterator<Item = bool> + '_ {
    let bits = |byte: u8| (0..8).map(move |i| (byte >> i) & 1 == 1);
    message.iter().copied().chain([0; 4]).flat_map(bits)
}

/// What `crc32c_extend` gives, a byte at a time, for the many bytes of logs. Its table is made by
/// the division above.
pub fn extend_by_bytes(checksum: u32, message: &[u8]) -> u32 {
    let table: &[u32; 256] = &CRC32C_TABLE;
    let register = message.iter().fold(!checksum, |register, byte| {
        table[usize::from(register as u8 ^ byte)] ^ (register >> 8)
    });
    !register
}

/// What `crc32c` gives, by bytes.
pub fn crc32c_by_bytes(message: &[u8]) -> u32 {
    extend_by_bytes(0, message)
}

/// The 256 numbers of docs/FORMAT.md, §2.7.
///
/// The register starts as 32 ones. So the one byte of a message finds the entry at its complement,
/// and that entry, with the 24 ones that are left of the start, is the complement of the CRC.
pub static CRC32C_TABLE: LazyLock<[u32; 256]> =
    LazyLock::new(|| array::from_fn(|entry| !crc32c(&[!(entry as u8)]) ^ 0x00FF_FFFF));

/// The form in which LevelDB stores a CRC: rotated right by 15 bits, plus 0xA282EAD8.
pub fn mask(crc: u32) -> u32 {
    crc.rotate_right(15).wrapping_add(0xA282_EAD8)
}
