//! What mending a log is to make of it (docs/FORMAT.md, §12), by the reference.

use reference::mend::{mend, Mended};

/// The mended log, and how many bytes were skipped. The buffer is left as a reading leaves it.
pub fn mended(bad: &[u8], limit: usize, buffer: &mut [u8]) -> (Vec<u8>, usize) {
    // As many bytes as the bad log has are enough (§12.4).
    let mut fresh = vec![0; bad.len()];
    match mend(bad, &mut fresh, limit, buffer) {
        Mended::Log { length, skipped } => {
            fresh.truncate(length);
            (fresh, skipped)
        }
        Mended::Refused { number, .. } => panic!("refused with {number}"),
    }
}
