//! Bytes as a terminal may be given them.

use crate::words::ends_or_turns;

/// The text in the bytes, in which nothing moves the cursor or turns the direction but a tab and a
/// line's end. Everything else that would, and all that is no text, is shown by its number.
pub fn harmless(bytes: &[u8]) -> String {
    let mut text = String::new();
    for chunk in bytes.utf8_chunks() {
        for c in chunk.valid().chars() {
            match c {
                '\t' | '\n' => text.push(c),
                _ if c.is_ascii_control() => text += &by_number(c as u8),
                _ if c.is_control() || ends_or_turns(c) => text.extend(c.escape_default()),
                _ => text.push(c),
            }
        }
        chunk
            .invalid()
            .iter()
            .for_each(|&byte| text += &by_number(byte));
    }
    text
}

fn by_number(byte: u8) -> String {
    format!("\\x{byte:02x}")
}
