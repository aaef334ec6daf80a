//! The commands, one a file.

mod append;
mod cat;
mod dump;
mod map;
mod mend;
mod verify;

pub use append::append;
pub use cat::cat;
pub use dump::{dump, follow};
pub use map::{map, Colour};
pub use mend::mend;
pub use verify::verify;
