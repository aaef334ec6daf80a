//! A second implementation, written from the published documents alone. It shares no code and no
//! table with the proved one, takes the plainest way, and makes the outputs the proved one is
//! held to.

mod crc32c;
pub mod feed;
pub mod log;
pub mod mend;
pub mod runs;
pub mod samples;
pub mod vectors;

pub use crc32c::{crc32c, crc32c_by_bytes, crc32c_extend, extend_by_bytes, mask, CRC32C_TABLE};
