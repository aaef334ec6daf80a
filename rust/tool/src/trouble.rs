//! What keeps the tool from doing what it was asked.

use crate::help;
use crate::screen::Screen;
use crate::words::shown;
use crate::wrap::wrapped;
use std::ffi::OsStr;
use std::io::{self, Write};

pub enum Trouble {
    /// A message for the user: what is wrong, with what, and what to do.
    Message(String),
    /// Nothing was asked for.
    NoCommand,
    /// Nobody reads the output any more, and nobody needs to be told.
    Closed,
}

impl Trouble {
    /// About a file, or whatever else is named.
    pub fn of(name: &OsStr, what: &str) -> Trouble {
        Trouble::Message(format!("{}: {what}", shown(name)))
    }

    /// A failure to read or write a file.
    pub fn io(name: &OsStr, doing: &str, error: &io::Error) -> Trouble {
        Trouble::of(name, &format!("could not {doing}: {}", in_words(error)))
    }

    pub fn tell(&self) {
        match self {
            Trouble::Message(message) => note(message),
            Trouble::NoCommand => {
                let help = help::page(help::ALL, Screen::of(&io::stderr()));
                say(&["mellansko: no command.".into(), String::new()]);
                say(&help.rows);
            }
            Trouble::Closed => {}
        }
    }
}

/// Why a file can't be read or written, and what to do.
pub fn in_words(error: &io::Error) -> String {
    let words = match error.kind() {
        io::ErrorKind::NotFound => "there is no such file. Check the name",
        io::ErrorKind::IsADirectory => "it is a folder. Name a journal in it",
        io::ErrorKind::NotADirectory => {
            "a part of the name before a slash is no folder. Check the name"
        }
        io::ErrorKind::PermissionDenied => "permission is denied. Ask the file's owner",
        io::ErrorKind::ReadOnlyFilesystem => {
            "it is on a disk that can only be read. Copy it to another, and use the copy"
        }
        io::ErrorKind::StorageFull => "the disk is full. Make room, and try again",
        io::ErrorKind::FileTooLarge => {
            "files may not get that long here. Ask whoever set the limit"
        }
        _ => return error.to_string(),
    };
    words.into()
}

/// Says something on standard error.
pub fn note(message: &str) {
    let columns = Screen::of(&io::stderr()).entry();
    say(&wrapped("mellansko: ", message, 4, columns));
}

/// Where standard error is closed, there is nobody to tell.
fn say(rows: &[String]) {
    let _ = io::stderr().write_all(format!("{}\n", rows.join("\n")).as_bytes());
}
