//! What is certain of a log that is fed in pieces.

use crate::{Answer, Feed, Next};
use std::fmt;
use std::iter::FusedIterator;

/// The answers that are certain now, by [`Feed::certain`], or once a piece has come, by
/// [`Feed::push`].
///
/// As an iterator it hands out records with bytes of their own; [`advance`](Certain::advance) lends
/// them instead.
#[must_use = "a piece is taken as answers are drawn, and they may say that a part is in doubt"]
pub struct Certain<'feed, 'piece> {
    feed: &'feed mut Feed,
    rest: &'piece [u8],
}

impl<'feed, 'piece> Certain<'feed, 'piece> {
    /// What is certain with a rest that can be taken: it belongs to a piece that was not refused.
    pub(crate) fn new(feed: &'feed mut Feed, rest: &'piece [u8]) -> Certain<'feed, 'piece> {
        Certain { feed, rest }
    }

    /// The next answer that is certain, with the bytes of a record lent until the next call. There
    /// is none once all of the piece is taken and no more is certain.
    #[must_use = "it may say that a part of the log is in doubt"]
    #[inline]
    pub fn advance(&mut self) -> Option<Answer<'_>> {
        let next = self.step()?;
        Some(self.feed.lend(next))
    }

    /// The bytes of the piece that are not taken yet: none once [`advance`](Certain::advance) has
    /// given none. If they are not offered again, to this feed, they are missing in the log.
    ///
    /// ```
    /// use mellansko::Feed;
    ///
    /// let (zeros, mut feed) = ([0; 100_000], Feed::new());
    /// let mut certain = feed.push(&zeros)?;
    /// assert!(certain.advance().is_some());
    /// // One block is answered for; the second one was not needed for it.
    /// let rest = certain.rest();
    /// assert_eq!(rest.len(), zeros.len() - mellansko::BLOCK);
    /// assert_eq!(feed.push(rest)?.count(), 2);
    /// # Ok::<(), mellansko::Refusal>(())
    /// ```
    #[must_use]
    pub fn rest(&self) -> &'piece [u8] {
        self.rest
    }

    #[inline(always)]
    fn step(&mut self) -> Option<Next> {
        loop {
            if let Some(next) = self.feed.step() {
                return Some(next);
            }
            if self.rest.is_empty() {
                return None;
            }
            let taken = self.feed.take(self.rest);
            let taken = taken.expect("no refusal of the rest, as of the whole piece");
            self.rest = &self.rest[taken..];
        }
    }
}

impl Iterator for Certain<'_, '_> {
    type Item = Answer<'static>;

    #[inline]
    fn next(&mut self) -> Option<Answer<'static>> {
        self.advance().map(Answer::into_owned)
    }
}

impl FusedIterator for Certain<'_, '_> {}

/// Without the bytes, which may be many.
impl fmt::Debug for Certain<'_, '_> {
    fn fmt(&self, f: &mut fmt::Formatter) -> fmt::Result {
        f.debug_struct("Certain")
            .field("feed", &self.feed)
            .field("rest", &self.rest.len())
            .finish()
    }
}
