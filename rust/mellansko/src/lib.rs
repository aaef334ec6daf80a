//! The writer and the reader of journals in the LevelDB log format, proved in Rattle, for Rust.
//!
//! A journal is a run of bytes, here called a log. [`append`] writes a record into one that is lent.
//! [`records`] is the way to load one that has to be whole: all of its records, or an error that says
//! what is in doubt.
//!
//! ```
//! let mut log = vec![0; 64];
//! let mut mark = 0;
//! for record in ["LW10-1 0.9137", "LW11 0.8412"] {
//!     mark = mellansko::append(&mut log, mark, record.as_bytes())?;
//! }
//! log.truncate(mark);
//! assert_eq!(mellansko::records(&log)?, [&b"LW10-1 0.9137"[..], b"LW11 0.8412"]);
//!
//! // With a byte changed, what can't be trusted is named.
//! log[10] ^= 1;
//! let error = mellansko::records(&log).unwrap_err();
//! assert_eq!(
//!     error.to_string(),
//!     "the log is in doubt from 0 to 38: the stored checksum is not that of the bytes"
//! );
//! # Ok::<(), Box<dyn std::error::Error>>(())
//! ```
//!
//! [`Reading`] is the way to see all that is in a log, damaged or not. It goes from the first byte to
//! the end, and says which bytes are records, which are skipped and why, and where a torn tail starts;
//! what is left are trailers of zeros, up to six that fill up a block. What is skipped is in doubt,
//! unless its reason is [no loss](Reason::is_loss):
//!
//! ```
//! use mellansko::{Answer, Reading};
//!
//! # let mut log = [0; 20];
//! # mellansko::append(&mut log, 0, b"LW10-1 0.9137")?;
//! for answer in Reading::of(&log)? {
//!     match answer {
//!         Answer::Record { record, bytes } => println!("{} to {}: {bytes:?}", record.start, record.end),
//!         Answer::Skip(skip) if skip.reason.is_loss() => println!("in doubt: {skip}"),
//!         Answer::Skip(skip) => println!("skipped: {skip}"),
//!         Answer::End(tail) => println!("the end: {tail}"),
//!     }
//! }
//! # Ok::<(), mellansko::Refusal>(())
//! ```
//!
//! [`Feed`] is for a log that is still coming. It is fed pieces of any length, and gives each
//! answer as soon as no byte that may still come can change it. [`Incoming`] does so over a
//! [`Read`](std::io::Read), a pipe or a file say. Neither holds more than two blocks and a record of the
//! log, so this is also the way to read one that need not be in memory:
//!
//! ```
//! use mellansko::{Answer, Incoming};
//!
//! # let pipe: &[u8] = &[];
//! let mut incoming = Incoming::new(pipe);
//! while let Some(answer) = incoming.advance()? {
//!     match answer {
//!         Answer::Record { record, bytes } => println!("record at {}: {bytes:?}", record.start),
//!         Answer::Skip(skip) if skip.reason.is_loss() => println!("in doubt: {skip}"),
//!         Answer::Skip(skip) => println!("skipped: {skip}"),
//!         Answer::End(tail) => println!("the end: {tail}"),
//!     }
//! }
//! # Ok::<(), mellansko::NotRead>(())
//! ```
//!
//! [`mend`] writes the records that are left in a damaged log into a new one, which then reads as
//! whole and can be appended to. Where something is missing, as far as a reader can tell, only the
//! damaged one shows, so it is worth keeping:
//!
//! ```
//! use mellansko::LONGEST_RECORD;
//!
//! # let mut bad = [0; 38];
//! # let mark = mellansko::append(&mut bad, 0, b"LW10-1 0.9137")?;
//! # mellansko::append(&mut bad, mark, b"LW11 0.8412")?;
//! # bad[30] ^= 1;
//! let mut fresh = vec![0; bad.len()];
//! let mut buffer = vec![0; LONGEST_RECORD];
//! let mended = mellansko::mend(&bad, &mut fresh, LONGEST_RECORD, &mut buffer)?;
//! fresh.truncate(mended.length);
//! println!("{} bytes were skipped", mended.skipped);
//! # assert_eq!((mended.length, mended.skipped), (20, 18));
//! # assert_eq!(fresh, bad[..20]);
//! # Ok::<(), mellansko::Refusal>(())
//! ```
//!
//! # What is promised
//!
//! Of the calls that this crate links this is proved. `docs/FORMAT.md` of the repository has the exact
//! words (§5 to §7, §11.12, §12, §14.4, §16), and `docs/PROOF.md` says what the proof rests on:
//!
//! - Whatever it is lent, each call ends and does nothing undefined. One that is refused changes no
//!   lent byte.
//! - Records that were appended one after the other, from mark 0 on, read back exactly and in order,
//!   with nothing skipped and a clean end, if the limit is not below any of them.
//! - If such a log is cut anywhere, the records that end at the cut or before it come out as written,
//!   and one that it falls into is a torn tail. If any bytes of one block are changed, and the length
//!   stays, the records with no byte in that block come out as written.
//! - Of any log, every byte is in exactly one record's span, skipped range or torn tail, or is a zero
//!   of a trailer outside of these. Each record is answered with how many
//!   [fragments](Record::fragments) it was read from, and where the last of them starts.
//! - A log that is fed in pieces, wherever they are cut, has the answers of the whole log. Each is
//!   given as early as can be: as soon as all logs have it that begin with what has come.
//! - Mending a log, of any 1,073,741,824 bytes or fewer, makes one that is no longer than it. With the
//!   same limit that reads as the records that a reading of the bad one answers, with nothing
//!   skipped and a clean end. A log that appends made from mark 0 on comes out as it was, if the
//!   limit is not below any record.
//!
//! This crate itself is tested, not proved. It puts the answers, ten numbers each, into types, cuts
//! a record's bytes out of the slice that its answer names, and feeds what a source of bytes gives.
//! Its only unsafe code is the calls, which need no more than a reference to a slice guarantees. It
//! panics at an answer that the proved calls cannot give: then another archive is linked.
//!
//! # How much memory it takes
//!
//! A record has up to 4,194,304 bytes ([`LONGEST_RECORD`]), a log up to 1,073,741,824
//! ([`LONGEST_LOG`]). The calls allocate nothing, and what stands around them allocates this:
//!
//! - A [`Reading`] takes a buffer of as many bytes as the limit, or as the log if that has fewer.
//! - A [`Feed`] takes a buffer of as many bytes as the limit, and a block; [`Incoming`] one block more.
//! - [`records`], and the readings as iterators, copy each record that lies in several fragments; a
//!   feed, which has no log to point into, copies every one. `advance` lends the bytes instead.
//!
//! The buffers come as zeros from the system, which as a rule finds memory only for the bytes that
//! a record has been put into. [`mend`] needs both logs. [`append`] needs nothing of what comes before
//! the mark: what it adds depends on the record and on the mark's place in its block alone, so that a
//! record for the end of a long file can be appended in a short log, at the same place of a block.
//!
//! # What no reader of this format can tell
//!
//! A piece of a record does not say which one it belongs to, nor a record which number it has. So in
//! each of these cases a log may read as whole (`docs/FORMAT.md`, §8 and §13.6):
//!
//! - It was cut exactly between two records: those after the cut are missing.
//! - Blocks were left out, are there twice, or were replaced by other sound ones, of an older journal
//!   say. Where their pieces fit, a record may even be put together of those of two.
//! - Bytes were made with a right checksum, or happen to have one: 32 bits are for accidents.
//!
//! A program that must have everything compares what it reads with what it expects: how many records
//! there are, where the last one stands, what they say.
//!
//! # The archive
//!
//! The build script links the archive of the proved calls. In the repository it has the toolchain's
//! command `rt` make that if it is missing or older than its sources. Where there is a ready one, the
//! variable `MELLANSKO_STATICLIB` names it by an absolute path:
//!
//! ```sh
//! MELLANSKO_STATICLIB=/usr/local/lib/libmellansko.a cargo build
//! ```
//!
//! Then `rt` is not called and no source is looked at, so nothing shows of which sources that archive
//! was made. The tests of this crate compare whatever is linked with a second implementation.

#[cfg(not(all(target_arch = "x86_64", target_os = "linux")))]
compile_error!("the proved calls are compiled for Linux on x86-64 alone");

mod answer;
mod calls;
mod certain;
mod feed;
mod incoming;
mod meaning;
mod mend;
// For comparisons and benchmarks.
#[doc(hidden)]
pub mod numbers;
mod reading;
mod reason;
mod records;
mod refusal;

pub use answer::{Next, Record, Skip, Stored, Tail};
pub use calls::{append, crc32c, mask, next};
pub use certain::Certain;
pub use feed::Feed;
pub use incoming::{Incoming, NotRead};
pub use mend::{mend, Mended};
pub use reading::{Answer, Reading};
pub use reason::Reason;
pub use records::{records, records_with_limit, Doubt, NotWhole};
pub use refusal::{Condition, Refusal};

/// The bytes of a block. If one block of a log that [`append`] made is changed, records with no byte
/// in it come out as written.
pub const BLOCK: usize = 32_768;

/// The most bytes that a record has.
pub const LONGEST_RECORD: usize = 4_194_304;

/// The most bytes that a log has that is read, lent or fed.
pub const LONGEST_LOG: usize = 1_073_741_824;

// The examples of the README are run as tests.
#[cfg(doctest)]
#[doc = include_str!("../../../README.md")]
struct Readme;
