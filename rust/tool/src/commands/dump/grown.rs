//! A file that may have grown since it was last read, and that still holds what was read of it.

use crate::journal;
use crate::shell::typed;
use crate::words::bytes;
use mellansko::NotRead;
use std::ffi::{OsStr, OsString};
use std::fs::{self, File, Metadata};
use std::io::{self, Read};
use std::os::unix::fs::{FileExt, MetadataExt};

/// As many of the last bytes read are looked at again. A journal that was begun anew, and has grown
/// past that place before anybody looked, has others there.
const LAST: usize = 64;

pub struct Grown {
    file: File,
    path: OsString,
    /// How many bytes were read, and the last of them.
    read: usize,
    last: Vec<u8>,
}

impl Grown {
    pub fn open(path: &OsStr) -> Result<Grown, NotRead> {
        // Asked before it is opened: a pipe that nobody writes to would be waited for.
        let about = fs::metadata(path)?;
        if about.is_dir() {
            return Err(io::Error::from(io::ErrorKind::IsADirectory).into());
        }
        if !about.is_file() {
            let dump = typed("dump", path, "");
            let why = format!(
                "it is not a plain file, so it can't be followed. To list it as it comes: {dump}"
            );
            return Err(io::Error::other(why).into());
        }
        Ok(Grown {
            file: journal::open(path)?,
            path: path.into(),
            read: 0,
            last: Vec::new(),
        })
    }

    /// Why nothing more is to be expected of this file, if so.
    fn is_lost(&self) -> io::Result<Option<String>> {
        let id = |about: &Metadata| (about.dev(), about.ino());
        let open = self.file.metadata()?;
        let named = match fs::metadata(&self.path) {
            Ok(named) => Some(named),
            Err(error) if error.kind() == io::ErrorKind::NotFound => None,
            Err(error) => return Err(error),
        };
        Ok(match named {
            _ if open.len() < self.read as u64 => Some(format!(
                "it is shorter than the {} that were read of it. {}",
                bytes(self.read),
                self.advice()
            )),
            None => {
                Some("no file has its name any more. The lines are of the one that had it".into())
            }
            Some(named) if id(&named) != id(&open) => Some(format!(
                "another file has its name by now. {}",
                self.advice()
            )),
            Some(_) => None,
        })
    }

    /// Whether the last bytes that were read are there still.
    fn is_same(&self) -> io::Result<bool> {
        let mut now = vec![0; self.last.len()];
        let place = (self.read - now.len()) as u64;
        match self.file.read_exact_at(&mut now, place) {
            Err(error) if error.kind() == io::ErrorKind::UnexpectedEof => Ok(false),
            read => read.map(|()| now == self.last),
        }
    }

    fn advice(&self) -> String {
        let again = typed("dump --follow", &self.path, "");
        format!("The lines may no longer be those of the file. To list it from the first byte on: {again}")
    }
}

impl Read for Grown {
    /// What has been added, if anything. It fails if the lines that were listed may no longer be
    /// about this file: no loss is to pass for a pause.
    fn read(&mut self, piece: &mut [u8]) -> io::Result<usize> {
        // Asked before it is read, so that what was added before it was lost is listed.
        let lost = self.is_lost()?;
        let length = self.file.read(piece)?;
        if let (0, Some(why)) = (length, lost) {
            return Err(io::Error::other(why));
        }
        // Asked after it is read, so that what is handed on comes after what was handed on before.
        if length > 0 && !self.is_same()? {
            let why = format!("what was read of it has been changed. {}", self.advice());
            return Err(io::Error::other(why));
        }
        self.read += length;
        self.last.extend_from_slice(&piece[..length]);
        self.last.drain(..self.last.len().saturating_sub(LAST));
        Ok(length)
    }
}
