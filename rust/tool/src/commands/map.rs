//! `mellansko map`: a picture of a journal, a cell for each block or for several.

mod cell;

use crate::gaps::Most;
use crate::journal::Source;
use crate::output::Output;
use crate::page::Page;
use crate::progress::Progress;
use crate::screen::Screen;
use crate::survey::Survey;
use crate::trouble::Trouble;
use crate::walk::Walk;
use crate::words::{bytes, grouped, shown};
use crate::wrap::untied;
use crate::Status;
use cell::Cell;
use mellansko::{BLOCK, LONGEST_RECORD};
use std::env;
use std::io::{self, IsTerminal};

/// When to colour.
#[derive(Clone, Copy)]
pub enum Colour {
    Always,
    Never,
    /// On a terminal, unless NO_COLOR is set.
    Auto,
}

/// The rows that a picture has at most, unless the user says how many blocks a cell has.
const ROWS: usize = 16;

/// The most cells of a row, and what their number is a multiple of, if there is room for as many:
/// so that the blocks of a row are easily counted.
const LONGEST_ROW: usize = 64;
const STEP: usize = 8;

pub fn map(
    source: &Source,
    blocks: Option<usize>,
    colour: Colour,
    output: &mut Output,
) -> Result<Status, Trouble> {
    let mut progress = Progress::new();
    let survey = source
        .fed(LONGEST_RECORD, &mut progress)
        .and_then(|fed| Survey::of(Walk::new(fed), Most::NONE, |_| {}))
        .map_err(|not_read| source.not_read(not_read))?;
    drop(progress);
    let mut page = Page::new(Screen::of(&io::stdout()));
    page.entry(&format!("{}: {}.", shown(source.name()), survey.verdict()));
    if survey.length > 0 {
        draw(&survey, blocks, colour.is_on(), &mut page);
    }
    output.page(&page)?;
    Ok(survey.status())
}

/// The picture, and what it means.
fn draw(survey: &Survey, blocks: Option<usize>, colour: bool, page: &mut Page) {
    let in_all = survey.blocks();
    let label = label(in_all).len();
    let row = row_of(page.screen.picture().saturating_sub(label + 2));
    let blocks = blocks.unwrap_or(in_all.div_ceil(row * ROWS)).min(in_all);
    for (part, number) in cell::cells(survey, blocks).chunks(row).zip(0..) {
        let first = self::label(number * row * blocks + 1);
        let cells = Cell::row(part, colour);
        page.rows.push(format!("{first:>label$}  {cells}"));
    }
    page.empty_row();
    page.rows
        .extend(cell::legend(page.screen.picture(), colour));
    page.entry("- between two cells: a record runs on into the next");
    let cell = match blocks {
        1 => "one block".into(),
        _ => format!("{} blocks", grouped(blocks)),
    };
    let size = bytes(blocks * BLOCK);
    page.entry(&format!("A cell is {cell}, {size}."));
}

/// What stands before a row.
fn label(block: usize) -> String {
    format!("block {}", untied(&grouped(block)))
}

/// How many cells fit so many columns, each a letter and a joint.
fn row_of(columns: usize) -> usize {
    match columns / 2 {
        0 => 1,
        few @ 1..STEP => few,
        many => (many / STEP * STEP).min(LONGEST_ROW),
    }
}

impl Colour {
    fn is_on(self) -> bool {
        match self {
            Colour::Always => true,
            Colour::Never => false,
            Colour::Auto => {
                io::stdout().is_terminal()
                    && env::var_os("NO_COLOR").is_none_or(|value| value.is_empty())
                    && env::var_os("TERM").is_none_or(|term| term != "dumb")
            }
        }
    }
}
