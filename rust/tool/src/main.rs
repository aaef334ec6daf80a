//! The command-line tool: says what damage a journal shows, lists what is in it, draws it, hands out
//! a record's bytes, appends a record, and puts what can be read of a bad journal into a new one.
//!
//! What a journal says is answered by the proved calls alone; here are files, words and colours.

mod arguments;
mod commands;
mod disk;
mod empty_starts;
mod fed;
mod gap;
mod gaps;
mod help;
mod journal;
mod list;
mod meaning;
mod output;
mod page;
mod progress;
mod rows;
mod screen;
mod shell;
mod survey;
mod trouble;
mod twins;
mod verdict;
mod walk;
mod words;
mod wrap;

use arguments::Command;
use output::Output;
use screen::Screen;
use std::process::ExitCode;
use std::{env, io};
use trouble::Trouble;

/// What the exit status says.
#[derive(Clone, Copy, PartialEq, Eq, PartialOrd, Ord)]
enum Status {
    /// Done, and no damage found in what was read.
    Done = 0,
    /// Something is in doubt.
    Doubt = 1,
    /// Not done.
    Failed = 2,
}

fn main() -> ExitCode {
    let status = run().unwrap_or_else(|trouble| {
        trouble.tell();
        Status::Failed
    });
    ExitCode::from(status as u8)
}

fn run() -> Result<Status, Trouble> {
    let command = arguments::parse(env::args_os().skip(1))?;
    let mut output = Output::new();
    let status = match command {
        Command::Help(text) => {
            output.page(&help::page(text, Screen::of(&io::stdout())))?;
            Status::Done
        }
        Command::Version => {
            output.line(help::VERSION)?;
            Status::Done
        }
        Command::Verify { sources, all } => commands::verify(&sources, all, &mut output)?,
        Command::Dump {
            source,
            limit,
            long,
        } => commands::dump(&source, limit, long, &mut output)?,
        Command::Follow { file, limit, long } => commands::follow(&file, limit, long, &mut output)?,
        Command::Map {
            source,
            blocks,
            colour,
        } => commands::map(&source, blocks, colour, &mut output)?,
        Command::Cat { source, number } => commands::cat(&source, number, &mut output)?,
        // What these have to say is said by then.
        Command::Append { file, new } => return commands::append(&file, new),
        Command::Mend { bad, new } => return commands::mend(&bad, &new, output),
    };
    output.flush()?;
    Ok(status)
}
