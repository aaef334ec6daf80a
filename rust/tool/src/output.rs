//! Standard output, of which no failure goes unnoticed.

use crate::page::Page;
use crate::trouble::Trouble;
use std::ffi::{c_int, c_short, c_ulong};
use std::io::{self, BufWriter, StdoutLock, Write};
use std::os::fd::AsRawFd;
use std::time::Duration;

pub struct Output(BufWriter<StdoutLock<'static>>);

impl Output {
    pub fn new() -> Output {
        Output(BufWriter::with_capacity(1 << 16, io::stdout().lock()))
    }

    pub fn write(&mut self, bytes: &[u8]) -> Result<(), Trouble> {
        self.0.write_all(bytes).map_err(trouble)
    }

    pub fn line(&mut self, line: &str) -> Result<(), Trouble> {
        self.write(line.as_bytes())?;
        self.write(b"\n")
    }

    pub fn page(&mut self, page: &Page) -> Result<(), Trouble> {
        page.rows.iter().try_for_each(|row| self.line(row))
    }

    /// Lets some time pass, unless nobody reads the output any more: whoever has nothing to write
    /// would not notice it.
    pub fn wait(&self, time: Duration) -> Result<(), Trouble> {
        match is_closed_within(time, self.0.get_ref().as_raw_fd()) {
            true => Err(Trouble::Closed),
            false => Ok(()),
        }
    }

    /// Has all that was written read before what is said next on standard error.
    pub fn flush(&mut self) -> Result<(), Trouble> {
        self.0.flush().map_err(trouble)
    }
}

fn trouble(error: io::Error) -> Trouble {
    match error.kind() {
        io::ErrorKind::BrokenPipe => Trouble::Closed,
        _ => Trouble::Message(format!("standard output could not be written: {error}")),
    }
}

/// As the system lays it out.
#[repr(C)]
struct Watched {
    fd: c_int,
    wanted: c_short,
    seen: c_short,
}

extern "C" {
    fn poll(watched: *mut Watched, number: c_ulong, milliseconds: c_int) -> c_int;
}

/// Waits for as long, or until what it writes to is closed at the other end.
fn is_closed_within(time: Duration, fd: c_int) -> bool {
    let milliseconds = time.as_millis().try_into().unwrap_or(c_int::MAX);
    // Nothing is wanted: an end that is closed is seen all the same.
    let (wanted, seen) = (0, 0);
    let mut watched = Watched { fd, wanted, seen };
    // Safe: the system reads and writes the one that is lent.
    let number = unsafe { poll(&mut watched, 1, milliseconds) };
    number > 0 && watched.seen != 0
}
