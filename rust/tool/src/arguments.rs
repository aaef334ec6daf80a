//! What the user asks for.

mod given;

use crate::commands::Colour;
use crate::help;
use crate::journal::Source;
use crate::shell::me;
use crate::trouble::Trouble;
use crate::words::shown;
use crate::wrap::tied;
use given::Given;
use mellansko::LONGEST_RECORD;
use std::ffi::{OsStr, OsString};

pub enum Command {
    /// One of the texts that help has.
    Help(&'static str),
    Version,
    Verify {
        sources: Vec<Source>,
        /// Whether to list every gap, however many there are.
        all: bool,
    },
    Dump {
        source: Source,
        limit: usize,
        /// Whether the lines say how records were stored.
        long: bool,
    },
    Follow {
        file: OsString,
        limit: usize,
        long: bool,
    },
    Map {
        source: Source,
        blocks: Option<usize>,
        colour: Colour,
    },
    Cat {
        source: Source,
        number: usize,
    },
    Append {
        file: OsString,
        new: bool,
    },
    Mend {
        bad: OsString,
        new: OsString,
    },
}

pub fn parse(words: impl Iterator<Item = OsString>) -> Result<Command, Trouble> {
    let mut words = words;
    let Some(first) = words.next() else {
        return Err(Trouble::NoCommand);
    };
    let rest: Vec<OsString> = words.collect();
    match first.to_str() {
        Some("verify") => Given::of("verify", help::VERIFY, &["--all"], rest)?.command(verify),
        Some("dump") => {
            let options = ["--limit", "--long", "--follow"];
            Given::of("dump", help::DUMP, &options, rest)?.command(dump)
        }
        Some("map") => Given::of("map", help::MAP, &["--blocks", "--color"], rest)?.command(map),
        Some("cat") => Given::of("cat", help::CAT, &[], rest)?.command(cat),
        Some("append") => Given::of("append", help::APPEND, &["--new"], rest)?.command(append),
        Some("mend") => Given::of("mend", help::MEND, &[], rest)?.command(mend),
        _ if is_help(&first) => help_on(&rest),
        Some("--version" | "-V") => Ok(Command::Version),
        _ => Err(Trouble::Message(format!(
            "there is no command {}. The commands are verify, dump, map, cat, append and mend: \
             see {}",
            shown(&first),
            tied(&format!("{} --help", me()))
        ))),
    }
}

fn help_on(rest: &[OsString]) -> Result<Command, Trouble> {
    match rest.first() {
        // Help on help is this too.
        Some(command) if !is_help(command) => parse([command.clone(), "--help".into()].into_iter()),
        _ => Ok(Command::Help(help::ALL)),
    }
}

fn is_help(word: &OsStr) -> bool {
    word == "help" || word == "--help" || word == "-h"
}

/// A journal to read.
fn source(given: &Given, word: OsString) -> Result<Source, Trouble> {
    match word == "-" {
        true => Ok(Source::StandardInput),
        false => named(given, word).map(Source::File),
    }
}

/// A file's name is not empty; one that is comes from a variable that was never set.
fn named(given: &Given, file: OsString) -> Result<OsString, Trouble> {
    match file.is_empty() {
        true => Err(given.wrong("a file's name is empty")),
        false => Ok(file),
    }
}

fn verify(mut given: Given) -> Result<Command, Trouble> {
    let all = given.value("--all").is_some();
    let plain = std::mem::take(&mut given.plain);
    if plain.is_empty() {
        return Err(given.wrong("wants one file or more"));
    }
    if plain.iter().filter(|&word| word == "-").count() > 1 {
        return Err(given.wrong("- is given twice, and standard input can be read only once"));
    }
    let sources = plain.into_iter().map(|word| source(&given, word));
    let sources = sources.collect::<Result<_, _>>()?;
    Ok(Command::Verify { sources, all })
}

fn dump(mut given: Given) -> Result<Command, Trouble> {
    let limit = match given.value("--limit") {
        Some(value) => given.number("--limit", value)?,
        None => LONGEST_RECORD,
    };
    let long = given.value("--long").is_some();
    let follow = given.value("--follow").is_some();
    let [file] = given.only("one file")?;
    match source(&given, file)? {
        Source::File(file) if follow => Ok(Command::Follow { file, limit, long }),
        Source::StandardInput if follow => Err(given.wrong(
            "--follow wants a file's name; standard input is listed as it comes without it",
        )),
        source => Ok(Command::Dump {
            source,
            limit,
            long,
        }),
    }
}

fn map(mut given: Given) -> Result<Command, Trouble> {
    let blocks = match given.value("--blocks") {
        Some(value) => Some(given.number("--blocks", value)?),
        None => None,
    };
    if blocks == Some(0) {
        return Err(given.wrong("--blocks is to be at least 1"));
    }
    let colour = match given.value("--color").map(|value| value.to_str()) {
        None | Some(Some("auto")) => Colour::Auto,
        Some(Some("always")) => Colour::Always,
        Some(Some("never")) => Colour::Never,
        _ => return Err(given.wrong("--color is to be always, never or auto")),
    };
    let [file] = given.only("one file")?;
    Ok(Command::Map {
        source: source(&given, file)?,
        blocks,
        colour,
    })
}

fn cat(mut given: Given) -> Result<Command, Trouble> {
    let [file, number] = given.only("a file and a record's number")?;
    let source = source(&given, file)?;
    let number = given.number("the record's number", &number)?;
    if number == 0 {
        return Err(given.wrong("records are numbered from 1 on"));
    }
    Ok(Command::Cat { source, number })
}

fn append(mut given: Given) -> Result<Command, Trouble> {
    let new = given.value("--new").is_some();
    let [file] = given.only("one file")?;
    if file == "-" {
        return Err(given.wrong("standard input has the record, so the journal is to be a file"));
    }
    let file = named(&given, file)?;
    Ok(Command::Append { file, new })
}

fn mend(mut given: Given) -> Result<Command, Trouble> {
    let [bad, new] = given.only("the bad journal and the new one")?;
    if bad == "-" {
        return Err(given.wrong(
            "the bad journal is to be a file: it has to be kept, since the new one does not show \
             what was lost",
        ));
    }
    if new == "-" {
        return Err(given.wrong("the new journal is to be a file"));
    }
    let [bad, new] = [named(&given, bad)?, named(&given, new)?];
    Ok(Command::Mend { bad, new })
}
