//! Text for a person, in rows that fit where it is shown.

use crate::screen::Screen;
use crate::wrap::{untied, wrapped};

pub struct Page {
    pub screen: Screen,
    pub rows: Vec<String>,
}

impl Page {
    pub fn new(screen: Screen) -> Page {
        Page {
            screen,
            rows: Vec::new(),
        }
    }

    /// Something that is one line in a file or a pipe.
    pub fn entry(&mut self, text: &str) {
        self.rows.extend(wrapped("", text, 4, self.screen.entry()));
    }

    /// The same, as one of several that belong to the entry before.
    pub fn point(&mut self, text: &str) {
        let columns = self.screen.entry();
        self.rows.extend(wrapped("  - ", text, 4, columns));
    }

    /// Sentences.
    pub fn prose(&mut self, text: &str) {
        self.rows.extend(wrapped("", text, 0, self.screen.prose()));
    }

    /// What can be typed as it stands, and is therefore never broken.
    pub fn command(&mut self, command: &str) {
        self.rows.push(format!("    {}", untied(command)));
    }

    pub fn empty_row(&mut self) {
        self.rows.push(String::new());
    }
}
