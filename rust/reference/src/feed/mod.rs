//! The reader that is fed a log in pieces: docs/FORMAT.md, §11, written from its text alone. It is
//! made of plain numbers, which a caller may make up; and beside it stands what its answers have to
//! be, by the definition of the earliest moment.

mod earliest;
mod next;
mod readings;
mod sound;
mod state;
mod take;
mod words;

pub use earliest::{continuations, earliest};
pub use next::{next, next_watched, Told};
pub use readings::reading;
pub use state::{begin, end, fits, State};
pub use take::take;
pub use words::{begin_words, end_words, next_words, take_words, words_of_told};

use crate::log::BLOCK;

/// The block that is lent (§11.2).
pub type Block = [u8; BLOCK];
