//! The fed reader (docs/FORMAT.md, §11): held to the whole log's reading, to the earliest moment by
//! its definition, and to the refusals.

mod accepted;
mod cuttings;
mod fed;
mod made_up;
mod make;
mod moments;
mod pieces;
mod program;
mod refusals;
mod sums;
mod trailers;
mod words;

// A part of it.
#[allow(dead_code)]
#[path = "../answers/mod.rs"]
mod answers;
#[path = "../dirty/mod.rs"]
mod dirty;
#[path = "../../../mellansko/tests/compare/odd.rs"]
mod odd;
#[path = "../../../mellansko/tests/random/mod.rs"]
mod random;
