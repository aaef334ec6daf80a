//! How a record was stored (docs/FORMAT.md, §16), as the crate says it of both readers: how many
//! fragments it was read from, and where the last of them starts.

#[path = "stored/appended.rs"]
mod appended;
#[path = "stored/cuts.rs"]
mod cuts;
#[path = "stored/examples.rs"]
mod examples;
mod expected;
mod fed;
#[path = "stored/laid.rs"]
mod laid;
#[path = "stored/mended.rs"]
mod mended;
#[path = "stored/odd.rs"]
mod odd;
mod random;
#[path = "stored/read.rs"]
mod read;
