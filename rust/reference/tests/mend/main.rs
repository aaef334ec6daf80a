//! Mending (docs/FORMAT.md, §12): held to the reading of the bad log, to the refusals, and to all
//! that is promised. The page's examples are in tests/format.rs.

mod layouts;
mod logs;
mod longest;
mod promises;
mod reading;
mod refusals;
mod small;
mod words;
mod written;

#[path = "../dirty/mod.rs"]
mod dirty;
#[path = "../../../mellansko/tests/compare/forge.rs"]
mod forge;
#[path = "../../../mellansko/tests/compare/hurt.rs"]
mod hurt;
// A part of it.
#[allow(dead_code)]
#[path = "../../../mellansko/tests/compare/make.rs"]
mod make;
#[path = "../../../mellansko/tests/compare/mixed.rs"]
mod mixed;
#[path = "../../../mellansko/tests/compare/odd.rs"]
mod odd;
#[path = "../../../mellansko/tests/random/mod.rs"]
mod random;
