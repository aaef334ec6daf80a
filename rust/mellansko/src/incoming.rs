//! A log read as it comes from a source of bytes.

use crate::{Answer, Feed, Refusal, BLOCK};
use std::error::Error;
use std::fmt;
use std::io::{self, Read};
use std::iter::FusedIterator;

/// The answers of a log that comes from a [`Read`]: a pipe, a line, a file. Each is given as soon
/// as the bytes that have come settle it, and the end when the source ends.
///
/// Nothing is read while an answer is certain, so a source that pauses keeps no answer back. It is
/// asked for at most a block's bytes at a time, whatever part of them it then gives. The answers do
/// not depend on how many it gives at once.
///
/// As an iterator it hands out records with bytes of their own; [`advance`](Incoming::advance)
/// lends them instead.
///
/// ```
/// use mellansko::{Answer, Incoming};
///
/// # let mut log = [0; 20];
/// # mellansko::append(&mut log, 0, b"LW10-1 0.9137").unwrap();
/// # let source = &log[..];
/// // A source might be io::stdin().lock(), or a socket.
/// let mut incoming = Incoming::new(source);
/// while let Some(answer) = incoming.advance()? {
///     match answer {
///         Answer::Record { record, bytes } => println!("record at {}: {bytes:?}", record.start),
///         Answer::Skip(skip) if skip.reason.is_loss() => println!("in doubt: {skip}"),
///         Answer::Skip(skip) => println!("skipped: {skip}"),
///         Answer::End(tail) => println!("the end: {tail}"),
///     }
/// }
/// # Ok::<(), mellansko::NotRead>(())
/// ```
#[must_use = "nothing is read before an answer is asked for"]
pub struct Incoming<R> {
    source: R,
    feed: Feed,
    piece: Box<[u8]>,
    /// Once refused, bytes that were read are missing: no answer may follow.
    refused: Option<Refusal>,
}

impl<R: Read> Incoming<R> {
    /// Reads with the highest limit there is on a record's length,
    /// [`LONGEST_RECORD`](crate::LONGEST_RECORD).
    pub fn new(source: R) -> Incoming<R> {
        Incoming::of(source, Feed::new())
    }

    /// Reads, and skips records of more bytes than the limit.
    ///
    /// # Errors
    ///
    /// The [condition](crate::Condition) `LimitTooHigh`.
    pub fn with_limit(source: R, limit: usize) -> Result<Incoming<R>, Refusal> {
        Ok(Incoming::of(source, Feed::with_limit(limit)?))
    }

    fn of(source: R, feed: Feed) -> Incoming<R> {
        Incoming {
            source,
            feed,
            piece: vec![0; BLOCK].into(),
            refused: None,
        }
    }

    /// The next answer, with the bytes of a record lent until the next call. It waits for the
    /// source only if nothing more is certain. After the end there is none, and nothing is read.
    ///
    /// ```
    /// use mellansko::{Answer, Incoming, Tail};
    ///
    /// let mut incoming = Incoming::new(&[0; 6][..]);
    /// assert_eq!(incoming.advance()?, Some(Answer::End(Tail::Torn(0))));
    /// assert_eq!(incoming.advance()?, None);
    /// # Ok::<(), mellansko::NotRead>(())
    /// ```
    ///
    /// # Errors
    ///
    /// [`NotRead::Io`] if the source gives an error, but for
    /// [`Interrupted`](io::ErrorKind::Interrupted): then it is asked again. Nothing that came is
    /// lost, and whoever calls again goes on from there. But some sources say that they are at
    /// their end after they failed, as a connection does that was reset: an end that is answered
    /// after such an error is where the bytes end, and may not be where the log does.
    ///
    /// [`NotRead::Refused`] if more than [`LONGEST_LOG`](crate::LONGEST_LOG) bytes come, once the
    /// answers that these settle are given; and at every call after that, since what came too much
    /// is lost.
    #[inline]
    pub fn advance(&mut self) -> Result<Option<Answer<'_>>, NotRead> {
        let next = loop {
            if let Some(next) = self.feed.step() {
                break next;
            }
            if self.feed.has_ended() {
                return Ok(None);
            }
            self.read()?;
        };
        Ok(Some(self.feed.lend(next)))
    }

    /// One piece, which is no longer than what the feed has room for, or the end.
    fn read(&mut self) -> Result<(), NotRead> {
        if let Some(refusal) = self.refused {
            return Err(refusal.into());
        }
        let room = self.feed.room();
        let length = read_some(&mut self.source, &mut self.piece[..room])?;
        if length == 0 {
            self.feed.end();
            return Ok(());
        }
        let taken = self.feed.take(&self.piece[..length]);
        let taken = taken.inspect_err(|&refusal| self.refused = Some(refusal))?;
        assert_eq!(taken, length, "there was room for {room} bytes");
        Ok(())
    }
}

/// At least one byte, unless the source ends.
fn read_some(source: &mut impl Read, piece: &mut [u8]) -> io::Result<usize> {
    loop {
        match source.read(piece) {
            Err(error) if error.kind() == io::ErrorKind::Interrupted => {}
            read => return read,
        }
    }
}

impl<R> Incoming<R> {
    /// What is being fed: how much has come, and up to where it is answered for.
    pub fn feed(&self) -> &Feed {
        &self.feed
    }

    /// The source.
    #[must_use]
    pub fn get_ref(&self) -> &R {
        &self.source
    }

    /// The source. What is read from it elsewhere is missing in the log.
    #[must_use]
    pub fn get_mut(&mut self) -> &mut R {
        &mut self.source
    }

    /// The source, without what has been read from it.
    #[must_use]
    pub fn into_inner(self) -> R {
        self.source
    }
}

impl<R: Read> Iterator for Incoming<R> {
    type Item = Result<Answer<'static>, NotRead>;

    #[inline]
    fn next(&mut self) -> Option<Result<Answer<'static>, NotRead>> {
        // A refusal stays for good, so a loop that goes on after errors would never end.
        let told = self.refused.is_some();
        let answer = self.advance().transpose()?;
        if told && answer.is_err() {
            return None;
        }
        Some(answer.map(Answer::into_owned))
    }
}

/// After the end, and after a refusal, which is given once. After another error the next call may
/// give an answer.
impl<R: Read> FusedIterator for Incoming<R> {}

/// Without the bytes that it holds, which may be many.
impl<R: fmt::Debug> fmt::Debug for Incoming<R> {
    fn fmt(&self, f: &mut fmt::Formatter) -> fmt::Result {
        f.debug_struct("Incoming")
            .field("source", &self.source)
            .field("feed", &self.feed)
            .field("refused", &self.refused)
            .finish_non_exhaustive()
    }
}

/// Why a log that comes in was not read on.
#[derive(Debug)]
#[must_use = "the log was not read to its end"]
pub enum NotRead {
    /// The source gave an error. Reading can go on if the source can.
    Io(io::Error),
    /// A call was refused, here of a log that is too long. Reading can't go on.
    Refused(Refusal),
}

impl From<io::Error> for NotRead {
    fn from(error: io::Error) -> NotRead {
        NotRead::Io(error)
    }
}

impl From<Refusal> for NotRead {
    fn from(refusal: Refusal) -> NotRead {
        NotRead::Refused(refusal)
    }
}

/// The source's error as it was; a refusal as one of the kind `InvalidData`, which holds it.
impl From<NotRead> for io::Error {
    fn from(not_read: NotRead) -> io::Error {
        match not_read {
            NotRead::Io(error) => error,
            NotRead::Refused(refusal) => io::Error::new(io::ErrorKind::InvalidData, refusal),
        }
    }
}

/// In plain words, on one line.
impl fmt::Display for NotRead {
    fn fmt(&self, f: &mut fmt::Formatter) -> fmt::Result {
        match self {
            NotRead::Io(error) => write!(f, "the log could not be read on: {error}"),
            NotRead::Refused(refusal) => write!(f, "the log was not read on: {refusal}"),
        }
    }
}

impl Error for NotRead {
    fn source(&self) -> Option<&(dyn Error + 'static)> {
        match self {
            NotRead::Io(error) => Some(error),
            NotRead::Refused(refusal) => Some(refusal),
        }
    }
}
