//! How a record was stored (docs/FORMAT.md, §16): of any log (§16.3), of appends (§16.5), of
//! mended logs (§16.6), and by the fed reader (§16.7). The page's examples are in tests/format.rs,
//! and what is made up for the fed reader in tests/feed.

mod any;
mod appends;
mod fed;
mod interrupted;
mod reading;
mod walk;
mod written;

// A part of it.
#[allow(dead_code)]
#[path = "../dirty/mod.rs"]
mod dirty;
#[path = "../../../mellansko/tests/compare/forge.rs"]
mod forge;
#[path = "../../../mellansko/tests/compare/hurt.rs"]
mod hurt;
// A part of it.
#[allow(dead_code)]
#[path = "../../../mellansko/tests/compare/make.rs"]
mod make;
#[path = "../../../mellansko/tests/compare/mixed.rs"]
mod mixed;
#[path = "../../../mellansko/tests/compare/odd.rs"]
mod odd;
#[path = "../../../mellansko/tests/random/mod.rs"]
mod random;
#[path = "../../../mellansko/tests/compare/starts.rs"]
mod starts;
#[path = "../../../mellansko/tests/compare/trailers.rs"]
mod trailers;
