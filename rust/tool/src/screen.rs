//! What there is room for where something is shown.

use std::env;
use std::ffi::{c_int, c_ulong};
use std::io::IsTerminal;
use std::os::fd::AsRawFd;

#[derive(Clone, Copy)]
pub struct Screen {
    /// How wide the terminal is; none for a file or a pipe.
    columns: Option<usize>,
    /// How many rows are seen at once, above the one that the prompt takes.
    pub rows: usize,
}

/// Longer rows are hard to read.
const PROSE: usize = 100;

/// What a terminal has that does not tell.
const COLUMNS: usize = 80;
const ROWS: usize = 24;

impl Screen {
    pub fn of(stream: &(impl AsRawFd + IsTerminal)) -> Screen {
        if !stream.is_terminal() {
            return Screen {
                columns: None,
                rows: ROWS,
            };
        }
        let size = size(stream.as_raw_fd());
        let told = |number: u16| Some(usize::from(number)).filter(|&number| number > 0);
        Screen {
            columns: told(size.columns).or_else(wished).or(Some(COLUMNS)),
            rows: told(size.rows).unwrap_or(ROWS) - 1,
        }
    }

    /// For sentences.
    pub fn prose(&self) -> usize {
        self.columns.map_or(PROSE, |columns| columns.min(PROSE))
    }

    /// For what a program may look for line by line: in a file or a pipe it is not broken.
    pub fn entry(&self) -> usize {
        self.columns
            .map_or(usize::MAX, |columns| columns.min(PROSE))
    }

    /// For a text that is laid out for a narrow terminal.
    pub fn help(&self) -> usize {
        self.columns.map_or(COLUMNS, |columns| columns.min(COLUMNS))
    }

    /// For a picture.
    pub fn picture(&self) -> usize {
        self.columns.or_else(wished).unwrap_or(COLUMNS)
    }
}

/// The width that the user set, for where no terminal tells one.
fn wished() -> Option<usize> {
    let columns = env::var("COLUMNS").ok()?.parse().ok();
    columns.filter(|&columns| columns > 0)
}

/// As the system lays it out.
#[repr(C)]
#[derive(Default)]
struct Size {
    rows: u16,
    columns: u16,
    pixels: [u16; 2],
}

extern "C" {
    fn ioctl(fd: c_int, request: c_ulong, ...) -> c_int;
}

/// The request for a terminal's size, on Linux.
const TIOCGWINSZ: c_ulong = 0x5413;

/// Zeros where the terminal does not tell.
fn size(fd: c_int) -> Size {
    let mut size = Size::default();
    // Safe: the system writes no more than a size, and nothing where it fails.
    unsafe { ioctl(fd, TIOCGWINSZ, &mut size) };
    size
}
