//! One line on standard error while something takes long, if that is a terminal.

use crate::screen::Screen;
use crate::words::{bytes, grouped, short};
use crate::wrap::{length, untied};
use std::ffi::OsStr;
use std::io::{self, IsTerminal, Write};
use std::time::{Duration, Instant};

/// How long it is quiet, and then how often it speaks.
const QUIET: Duration = Duration::from_millis(300);
const PAUSE: Duration = Duration::from_millis(100);

/// Goes back to the line's beginning, and empties it.
const ERASE: &str = "\r\x1b[K";

pub struct Progress {
    /// When to speak next; never, if nobody watches.
    due: Option<Instant>,
    line: Line,
    /// How many bytes there are to be read, if that is known.
    all: Option<usize>,
}

/// What the terminal's line holds.
#[derive(Clone, Copy, PartialEq, Eq)]
enum Line {
    /// Whatever was there before.
    Untouched,
    Shown,
    Erased,
}

impl Progress {
    pub fn new() -> Progress {
        Progress::due(io::stderr().is_terminal().then(|| Instant::now() + QUIET))
    }

    /// The same while the output is written, with which it would be mixed on one terminal.
    pub fn beside_output() -> Progress {
        match io::stdout().is_terminal() {
            true => Progress::silent(),
            false => Progress::new(),
        }
    }

    /// For what must not be written into.
    pub fn silent() -> Progress {
        Progress::due(None)
    }

    fn due(due: Option<Instant>) -> Progress {
        Progress {
            due,
            line: Line::Untouched,
            all: None,
        }
    }

    /// Something else is read from here on, of so many bytes if that is known.
    pub fn begin(&mut self, all: Option<usize>) {
        self.all = all;
    }

    /// Shows how much has been read, on one row: a long name is cut.
    pub fn read(&mut self, name: &OsStr, came: usize) {
        const NAME: usize = 30;
        let all = self.all;
        self.show(|columns| {
            let far = match all {
                Some(all) if came <= all => format!("{} of {} read", grouped(came), bytes(all)),
                // Not known, or it has grown.
                _ => format!("{} read", bytes(came)),
            };
            // Beside a colon, a space, the points of a name that is cut, and a column left free.
            let room = columns.saturating_sub(length(&far) + 6);
            format!("{}: {far}", short(name, room.min(NAME)))
        });
    }

    /// Shows a line if it is time to. It is made for so many columns.
    fn show(&mut self, line: impl FnOnce(usize) -> String) {
        let now = Instant::now();
        if self.due.is_some_and(|due| due <= now) {
            self.due = Some(now + PAUSE);
            let before = if self.line == Line::Erased { "" } else { ERASE };
            self.line = Line::Shown;
            let mut error = io::stderr();
            let line = line(Screen::of(&error).entry());
            let _ = write!(error, "{before}{}", untied(&line));
            let _ = error.flush();
        }
    }

    /// Leaves no line behind.
    pub fn erase(&mut self) {
        if self.line == Line::Shown {
            self.line = Line::Erased;
            let _ = write!(io::stderr(), "{ERASE}");
        }
    }
}

impl Drop for Progress {
    fn drop(&mut self) {
        self.erase();
    }
}
