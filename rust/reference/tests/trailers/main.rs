//! Trailers (docs/FORMAT.md, §14): each length with each byte dirty, what is said of any log, and the
//! bound on calls (§6.3). The page's examples are in tests/format.rs, and the fed reader's trailers
//! in tests/feed.

mod account;
mod calls;
mod each;

#[path = "../answers/mod.rs"]
mod answers;
#[path = "../dirty/mod.rs"]
mod dirty;
#[path = "../../../mellansko/tests/compare/forge.rs"]
mod forge;
#[path = "../../../mellansko/tests/compare/hurt.rs"]
mod hurt;
// A part of it.
#[allow(dead_code)]
#[path = "../../../mellansko/tests/compare/make.rs"]
mod make;
#[path = "../../../mellansko/tests/compare/mixed.rs"]
mod mixed;
#[path = "../../../mellansko/tests/compare/odd.rs"]
mod odd;
#[path = "../../../mellansko/tests/random/mod.rs"]
mod random;
