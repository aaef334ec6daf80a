//! A cell of the picture: a block, or several.

use crate::survey::{Mark, Survey};
use crate::wrap::length;

/// What stands in a cell. The letter alone says it, the colour says it again.
#[derive(Clone, Copy)]
pub struct Cell {
    doubt: bool,
    torn: bool,
    runs_on: bool,
}

pub fn cells(survey: &Survey, blocks: usize) -> Vec<Cell> {
    let groups = survey.marks.chunks(blocks);
    let cell = |group: &[Mark]| Cell {
        doubt: group.iter().any(|mark| mark.doubt),
        torn: group.iter().any(|mark| mark.torn),
        runs_on: group.last().is_some_and(|mark| mark.runs_on),
    };
    groups.map(cell).collect()
}

impl Cell {
    /// The letter, the colour by its number in a terminal, and what they mean.
    fn look(self) -> (char, u8, &'static str) {
        match (self.doubt, self.torn) {
            (false, false) => ('R', 32, "readable"),
            (true, false) => ('D', 31, "in doubt"),
            (false, true) => ('T', 33, "torn tail"),
            (true, true) => ('X', 35, "in doubt and torn"),
        }
    }

    fn letter(self, colour: bool) -> String {
        let (letter, number, _) = self.look();
        match colour {
            true => format!("\x1b[1;{number}m{letter}\x1b[0m"),
            false => letter.into(),
        }
    }

    /// Cells side by side, each with the joint to the next.
    pub fn row(cells: &[Cell], colour: bool) -> String {
        let drawn = |cell: &Cell| {
            let joint = if cell.runs_on { '-' } else { ' ' };
            format!("{}{joint}", cell.letter(colour))
        };
        let cells: String = cells.iter().map(drawn).collect();
        cells.trim_end().into()
    }
}

/// The letters and what they mean, in rows of so many columns.
pub fn legend(columns: usize, colour: bool) -> Vec<String> {
    const APART: &str = "   ";
    let mut rows = vec![String::new()];
    let mut used = 0;
    for (doubt, torn) in [(false, false), (true, false), (false, true), (true, true)] {
        let cell = Cell {
            doubt,
            torn,
            runs_on: false,
        };
        let (_, _, meaning) = cell.look();
        // The letter and a space.
        let wide = 2 + length(meaning);
        if used > 0 && used + APART.len() + wide > columns {
            rows.push(String::new());
            used = 0;
        }
        let apart = if used > 0 { APART } else { "" };
        used += apart.len() + wide;
        let row = rows.last_mut().expect("a row");
        *row += &format!("{apart}{} {meaning}", cell.letter(colour));
    }
    rows
}
