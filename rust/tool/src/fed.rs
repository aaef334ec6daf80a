//! A journal that is read as it comes, in memory that does not grow with it.

use crate::progress::Progress;
use mellansko::{Answer, Feed, NotRead, BLOCK};
use std::ffi::OsStr;
use std::io::{self, Read};

/// However long the journal is, this holds one piece of it, and what the proved reader holds: a
/// block and a record.
pub struct Fed<'a, R> {
    from: R,
    name: &'a OsStr,
    feed: Feed,
    piece: Box<[u8]>,
    /// Where to show how far it is, if anywhere.
    progress: Option<&'a mut Progress>,
}

impl<'a, R: Read> Fed<'a, R> {
    pub fn new(
        from: R,
        name: &'a OsStr,
        feed: Feed,
        progress: Option<&'a mut Progress>,
    ) -> Fed<'a, R> {
        Fed {
            from,
            name,
            feed,
            piece: vec![0; BLOCK].into(),
            progress,
        }
    }

    /// The next answer that is certain by what has come. Nothing is read for it.
    pub fn certain(&mut self) -> Option<Answer<'_>> {
        self.feed.advance()
    }

    /// Waits for more, and gives what came: a byte or as many as there are, up to the end of the
    /// block that is being read, so that all of it is taken. None come where the source ends.
    pub fn read(&mut self) -> Result<&[u8], NotRead> {
        let room = self.feed.room();
        let length = read_some(&mut self.from, &mut self.piece[..room])?;
        let piece = &self.piece[..length];
        if length > 0 {
            let taken = self.feed.take(piece)?;
            assert_eq!(taken, length, "there was room for {room} bytes");
        }
        if let Some(progress) = &mut self.progress {
            progress.read(self.name, self.feed.came());
        }
        Ok(piece)
    }

    /// Announces that nothing more comes.
    pub fn end(&mut self) {
        self.feed.end();
    }

    /// How many bytes have come.
    pub fn came(&self) -> usize {
        self.feed.came()
    }

    /// Shows nothing of how far it is until more is read, so that something else can be shown.
    pub fn make_way(&mut self) {
        if let Some(progress) = &mut self.progress {
            progress.erase();
        }
    }
}

/// At least one byte, unless the source ends.
fn read_some(from: &mut impl Read, piece: &mut [u8]) -> io::Result<usize> {
    loop {
        match from.read(piece) {
            Err(error) if error.kind() == io::ErrorKind::Interrupted => {}
            read => return read,
        }
    }
}
