//! A list that is written as it is made, since it may be longer than anybody could keep.

use crate::output::Output;
use crate::page::Page;
use crate::screen::Screen;
use crate::trouble::Trouble;

pub struct Rows<'a> {
    screen: Screen,
    output: &'a mut Output,
    /// How many were written.
    pub number: usize,
}

impl<'a> Rows<'a> {
    pub fn new(screen: Screen, output: &'a mut Output) -> Rows<'a> {
        Rows {
            screen,
            output,
            number: 0,
        }
    }

    /// As an entry of a page.
    pub fn entry(&mut self, text: &str) -> Result<(), Trouble> {
        self.write(|page| page.entry(text))
    }

    /// As entries, those that there are.
    pub fn entries(&mut self, texts: &[Option<String>]) -> Result<(), Trouble> {
        let mut texts = texts.iter().flatten();
        texts.try_for_each(|text| self.entry(text))
    }

    /// As one of several points that belong to the entry before.
    pub fn point(&mut self, text: &str) -> Result<(), Trouble> {
        self.write(|page| page.point(text))
    }

    pub fn write(&mut self, put: impl FnOnce(&mut Page)) -> Result<(), Trouble> {
        let mut page = Page::new(self.screen);
        put(&mut page);
        self.number += page.rows.len();
        self.output.page(&page)
    }
}
