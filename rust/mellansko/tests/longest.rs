//! Logs of the greatest length there is (docs/FORMAT.md, §15.2), and of one byte more, against the
//! reference: every word of the answers, and every lent byte.
//!
//! It is one test, since a log in two copies takes 2 GiB of memory, and a fresh one as much again:
//! 4 GiB, which two tests at a time might not find. And a log is compared once after some calls, not
//! after each of them, since that takes a good part of a second.

#[path = "longest/both.rs"]
mod both;
#[path = "longest/fed.rs"]
mod fed;
#[path = "longest/journal.rs"]
mod journal;
#[path = "compare/lent.rs"]
mod lent;
// A part of it.
#[allow(dead_code)]
#[path = "compare/made.rs"]
mod made;
// A part of it.
#[allow(dead_code)]
#[path = "compare/make.rs"]
mod make;
// A part of it.
#[allow(dead_code)]
#[path = "feed_compare/pair.rs"]
mod pair;
mod random;
#[path = "longest/slices.rs"]
mod slices;
#[path = "compare/words.rs"]
mod told;
#[path = "feed_compare/words.rs"]
mod words;

use random::Random;

#[test]
fn logs_of_the_greatest_length_and_of_one_byte_more() {
    let mut random = Random::new();
    // Shown where the test fails.
    println!("{random}");
    slices::appended_to_and_read(&mut random);
    slices::mended(&mut random);
    fed::to_the_last_byte(&mut random);
    journal::read_and_mended(&mut random);
}
