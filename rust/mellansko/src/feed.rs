//! A log read as it comes.

use crate::numbers::feed::{self, State, CAME, OPENED, PLACE, START};
use crate::numbers::{Numbers, UNWRITTEN};
use crate::{meaning, Answer, Certain, Next, Refusal, BLOCK, LONGEST_RECORD};
use std::borrow::Cow;
use std::fmt;

/// A reader that is fed a log in pieces, and gives each answer as soon as no byte that may still
/// come can change it (`docs/FORMAT.md`, §11).
///
/// Pieces may have any length; where they are cut makes no difference to the answers of a log that
/// is not too long, that is of up to [`LONGEST_LOG`](crate::LONGEST_LOG) bytes. These are those that
/// [`Reading`](crate::Reading) gives of the whole log, in the same order, but that every record is
/// [gathered](crate::Stored::Gathered), also one of a [single fragment](crate::Record::fragments).
/// A `Feed` holds one block and one record, however long the log is: for the record it keeps a
/// buffer of as many bytes as the limit, 4 MiB of them with the highest.
///
/// The simplest way is [`push`](Feed::push), which takes all of a piece and gives what is then
/// certain; at last [`end`](Feed::end) announces that no more comes. [`Incoming`](crate::Incoming)
/// does all this over a [`Read`](std::io::Read).
///
/// ```
/// use mellansko::{Answer, Feed, Tail};
///
/// # let mut log = [0; 38];
/// # let mark = mellansko::append(&mut log, 0, b"LW10-1 0.9137")?;
/// # mellansko::append(&mut log, mark, b"LW11 0.8412")?;
/// // Two records, of which the last byte has not come yet.
/// let (first, last) = log.split_at(37);
/// let mut feed = Feed::new();
/// for answer in feed.push(first)? {
///     match answer {
///         Answer::Record { bytes, .. } => assert_eq!(*bytes, *b"LW10-1 0.9137"),
///         Answer::Skip(skip) if skip.reason.is_loss() => panic!("in doubt: {skip}"),
///         Answer::Skip(_) => {}
///         Answer::End(_) => unreachable!("it is not announced"),
///     }
/// }
/// // The second is certain once its last byte has come, and the end once it is announced.
/// assert_eq!(feed.push(last)?.count(), 1);
/// feed.end();
/// assert_eq!(feed.advance(), Some(Answer::End(Tail::Clean)));
/// assert_eq!(feed.advance(), None);
/// # Ok::<(), mellansko::Refusal>(())
/// ```
///
/// Without an end that is announced, none is answered: a program that stops before it has not seen
/// whether the log's tail is torn.
#[must_use = "nothing is read before a piece is taken"]
pub struct Feed {
    state: State,
    block: Box<[u8; BLOCK]>,
    buffer: Box<[u8]>,
    /// The last answer's numbers, kept so that no call needs new ones.
    answer: Numbers,
    /// Whether the end has been answered.
    ended: bool,
}

impl Feed {
    /// A reader with the highest limit there is on a record's length, [`LONGEST_RECORD`].
    pub fn new() -> Feed {
        Feed::with_limit(LONGEST_RECORD)
            .unwrap_or_else(|_| unreachable!("the highest limit is not refused"))
    }

    /// A reader that skips records of more bytes than the limit, and keeps a buffer of no more.
    ///
    /// ```
    /// use mellansko::{Condition, Feed, LONGEST_RECORD};
    ///
    /// let refusal = Feed::with_limit(LONGEST_RECORD + 1).unwrap_err();
    /// assert_eq!(refusal.condition, Condition::LimitTooHigh);
    /// ```
    ///
    /// # Errors
    ///
    /// The [condition](crate::Condition) `LimitTooHigh`. Nothing is allocated then.
    pub fn with_limit(limit: usize) -> Result<Feed, Refusal> {
        let (mut state, mut answer) = (UNWRITTEN, UNWRITTEN);
        let kind = feed::begin(limit, &mut state, &mut answer);
        meaning::begun(kind, &answer)?;
        Ok(Feed {
            state,
            block: Box::new([0; BLOCK]),
            buffer: vec![0; limit].into(),
            answer,
            ended: false,
        })
    }

    /// Takes the first bytes of a piece, as many as there is [room](Feed::room) for, and gives
    /// their number. If it is less than the piece's length, the rest is offered again after answers
    /// are drawn: once [`advance`](Feed::advance) gives none there is room for a byte at least.
    /// With [`push`](Feed::push) there is no rest to see to.
    ///
    /// ```
    /// use mellansko::Feed;
    ///
    /// # let mut log = vec![0; 50_000];
    /// # let mut mark = 0;
    /// # while let Ok(end) = mellansko::append(&mut log, mark, b"LW10-1 0.9137") { mark = end; }
    /// # log.truncate(mark);
    /// let (mut feed, mut rest, mut answers) = (Feed::new(), &log[..], 0);
    /// while !rest.is_empty() {
    ///     let taken = feed.take(rest)?;
    ///     rest = &rest[taken..];
    ///     while let Some(answer) = feed.advance() {
    ///         // .. look at it ..
    ///         # assert!(matches!(answer, mellansko::Answer::Record { .. }));
    ///         answers += 1;
    ///     }
    /// }
    /// # assert_eq!(answers, mellansko::records(&log).unwrap().len());
    /// # Ok::<(), mellansko::Refusal>(())
    /// ```
    ///
    /// # Errors
    ///
    /// The first of these [conditions](crate::Condition) that holds: `LogTooLong`, judged for all
    /// of the piece; `AfterEnd`. Nothing is taken then, and reading can go on as if it had not been
    /// offered.
    #[must_use = "it may have taken a part of the piece only"]
    #[inline]
    pub fn take(&mut self, piece: &[u8]) -> Result<usize, Refusal> {
        let (state, answer) = (&mut self.state, &mut self.answer);
        let kind = feed::take(state, &mut self.block, piece, answer);
        meaning::taken(kind, answer)
    }

    /// Takes all of a piece, of any length, and gives what is certain: answers that were not drawn
    /// before it, and those that its bytes settle.
    ///
    /// The piece is taken as the answers are drawn, up to the last one. Whoever stops before that
    /// finds in [`Certain::rest`] what was not taken.
    ///
    /// ```
    /// use mellansko::{Answer, Feed};
    ///
    /// # let mut log = vec![0; 50_000];
    /// # let mark = mellansko::append(&mut log, 0, &[7; 40_000])?;
    /// # log.truncate(mark);
    /// let mut feed = Feed::new();
    /// for piece in log.chunks(1_000) {
    ///     let mut certain = feed.push(piece)?;
    ///     while let Some(answer) = certain.advance() {
    ///         match answer {
    ///             // The bytes are lent until the next call: nothing is copied.
    ///             Answer::Record { record, bytes } => println!("{}: {bytes:?}", record.start),
    ///             Answer::Skip(skip) if skip.reason.is_loss() => println!("in doubt: {skip}"),
    ///             Answer::Skip(skip) => println!("skipped: {skip}"),
    ///             Answer::End(tail) => println!("the end: {tail}"),
    ///         }
    ///     }
    /// }
    /// # assert_eq!(feed.came(), mark);
    /// # Ok::<(), mellansko::Refusal>(())
    /// ```
    ///
    /// # Errors
    ///
    /// As for [`take`](Feed::take).
    pub fn push<'piece>(&mut self, piece: &'piece [u8]) -> Result<Certain<'_, 'piece>, Refusal> {
        let taken = self.take(piece)?;
        Ok(Certain::new(self, &piece[taken..]))
    }

    /// Announces that the log ends with what has come. A second time changes nothing.
    ///
    /// What waited for more bytes is then certain, and so is the end: draw the answers up to it.
    pub fn end(&mut self) {
        feed::end(&mut self.state);
    }

    /// The next answer that is certain, with the bytes of a record lent until the next call. There
    /// is none if nothing more is certain before another piece comes or the end is announced, and
    /// none after the end.
    ///
    /// An answer is not to be dropped:
    ///
    /// ```compile_fail
    /// #![deny(unused_must_use)]
    /// mellansko::Feed::new().advance();
    /// ```
    ///
    /// The bytes can't be kept past the next call:
    ///
    /// ```compile_fail,E0499
    /// let mut feed = mellansko::Feed::new();
    /// let answer = feed.advance();
    /// feed.end();
    /// println!("{answer:?}");
    /// ```
    #[must_use = "it may say that a part of the log is in doubt"]
    #[inline]
    pub fn advance(&mut self) -> Option<Answer<'_>> {
        let next = self.step()?;
        Some(self.lend(next))
    }

    /// The answers that are certain, as an iterator, whose records have bytes of their own.
    ///
    /// ```
    /// use mellansko::{Answer, Feed, Tail};
    ///
    /// let mut feed = Feed::new();
    /// // Six bytes are no header yet; that the log ends inside one is certain at its end.
    /// assert_eq!(feed.take(&[0; 6])?, 6);
    /// assert_eq!(feed.certain().count(), 0);
    /// feed.end();
    /// assert!(feed.certain().eq([Answer::End(Tail::Torn(0))]));
    /// # Ok::<(), mellansko::Refusal>(())
    /// ```
    pub fn certain(&mut self) -> Certain<'_, 'static> {
        Certain::new(self, &[])
    }

    /// How many of the log's bytes have come.
    #[inline]
    #[must_use]
    pub fn came(&self) -> usize {
        self.state[CAME] as usize
    }

    /// The place up to which all has been answered for: every byte before it is in a record or
    /// range that was answered, or is a zero of a trailer.
    #[inline]
    #[must_use]
    pub fn place(&self) -> usize {
        let open = self.state[OPENED] == 1;
        self.state[if open { START } else { PLACE }] as usize
    }

    /// How many bytes of a piece are taken now, if it has so many: up to the end of the block that
    /// is being read. Once nothing more is certain, it is 1 at least.
    ///
    /// A program that asks for no more bytes than that has no rest to see to.
    #[inline]
    #[must_use]
    pub fn room(&self) -> usize {
        let place = self.state[PLACE] as usize;
        place - place % BLOCK + BLOCK - self.came()
    }

    /// The next answer, without a record's bytes.
    #[inline(always)]
    pub(crate) fn step(&mut self) -> Option<Next> {
        if self.ended {
            return None;
        }
        let (buffer, answer) = (&mut self.buffer, &mut self.answer);
        let kind = feed::next(&mut self.state, &self.block, buffer, answer);
        let next = meaning::certain(kind, answer);
        let next = next.expect("no refusal, of a state and a buffer that calls made")?;
        self.ended = matches!(next, Next::End(_));
        Some(next)
    }

    /// What the last step gave, with a record's bytes.
    #[inline]
    pub(crate) fn lend(&self, next: Next) -> Answer<'_> {
        Answer::new(next, |record| {
            Cow::Borrowed(record.bytes(&[], &self.buffer))
        })
    }

    /// Whether the end has been answered, so that no answer will come.
    pub(crate) fn has_ended(&self) -> bool {
        self.ended
    }
}

impl Default for Feed {
    fn default() -> Feed {
        Feed::new()
    }
}

/// Without the bytes that it holds, which may be many.
impl fmt::Debug for Feed {
    fn fmt(&self, f: &mut fmt::Formatter) -> fmt::Result {
        f.debug_struct("Feed")
            .field("place", &self.place())
            .field("came", &self.came())
            .field("limit", &self.buffer.len())
            .field("ended", &self.ended)
            .finish_non_exhaustive()
    }
}
