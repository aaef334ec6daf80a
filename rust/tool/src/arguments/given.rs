//! The words that were given after a command.

use super::Command;
use crate::shell::me;
use crate::trouble::Trouble;
use crate::words::shown;
use crate::wrap::tied;
use std::ffi::{OsStr, OsString};

/// The options that take no value.
const SWITCHES: [&str; 4] = ["--new", "--all", "--long", "--follow"];

pub struct Given {
    command: &'static str,
    help: &'static str,
    wants_help: bool,
    options: Vec<(&'static str, OsString)>,
    pub plain: Vec<OsString>,
}

impl Given {
    /// Sets the options that the command has apart from the other words. After `--` all are such.
    pub fn of(
        command: &'static str,
        help: &'static str,
        known: &[&'static str],
        rest: Vec<OsString>,
    ) -> Result<Given, Trouble> {
        let mut given = Given {
            command,
            help,
            wants_help: false,
            options: Vec::new(),
            plain: Vec::new(),
        };
        let mut rest = rest.into_iter();
        while let Some(word) = rest.next() {
            // No option and no value of one has anything but plain letters in it.
            match &*word.to_string_lossy().into_owned() {
                "--help" | "-h" => given.wants_help = true,
                "--" => given.plain.extend(rest.by_ref()),
                text if text.starts_with('-') && text != "-" => {
                    given.option(text, known, &mut rest)?;
                }
                _ => given.plain.push(word),
            }
        }
        Ok(given)
    }

    /// An option as `--name VALUE`, `--name=VALUE` or, where it takes none, `--name`.
    fn option(
        &mut self,
        text: &str,
        known: &[&'static str],
        rest: &mut impl Iterator<Item = OsString>,
    ) -> Result<(), Trouble> {
        let (name, value) = match text.split_once('=') {
            Some((name, value)) => (name, Some(OsString::from(value))),
            None => (text, None),
        };
        let Some(&name) = known.iter().find(|&&option| option == name) else {
            let name = shown(OsStr::new(name));
            let why =
                format!("there is no option {name}; after -- a file's name may begin with a dash");
            return Err(self.wrong(&why));
        };
        let value = match (name, value) {
            (name, None) if SWITCHES.contains(&name) => OsString::new(),
            (name, Some(_)) if SWITCHES.contains(&name) => {
                return Err(self.wrong(&format!("{name} takes no value")));
            }
            (_, Some(value)) => value,
            (_, None) => match rest.next() {
                Some(value) => value,
                None => return Err(self.wrong(&format!("{name} wants a value after it"))),
            },
        };
        if self.value(name).is_some() {
            return Err(self.wrong(&format!("{name} is given twice")));
        }
        self.options.push((name, value));
        Ok(())
    }

    pub fn command(self, parse: fn(Given) -> Result<Command, Trouble>) -> Result<Command, Trouble> {
        if self.wants_help {
            return Ok(Command::Help(self.help));
        }
        parse(self)
    }

    pub fn value(&self, name: &str) -> Option<&OsStr> {
        let option = self.options.iter().find(|option| option.0 == name)?;
        Some(&option.1)
    }

    /// A number in digits, or the highest there is where they say more.
    pub fn number(&self, what: &str, word: &OsStr) -> Result<usize, Trouble> {
        let digits = word
            .to_str()
            .filter(|text| !text.is_empty() && text.bytes().all(|b| b.is_ascii_digit()));
        match digits {
            Some(digits) => Ok(digits.parse().unwrap_or(usize::MAX)),
            None => Err(self.wrong(&format!(
                "{what} is to be a number in digits, not \"{}\"",
                shown(word)
            ))),
        }
    }

    /// The only words, as many as are wanted.
    pub fn only<const N: usize>(&mut self, what: &str) -> Result<[OsString; N], Trouble> {
        let plain = std::mem::take(&mut self.plain);
        plain
            .try_into()
            .map_err(|plain: Vec<_>| self.wrong(&format!("wants {what}, and got {}", plain.len())))
    }

    pub fn wrong(&self, what: &str) -> Trouble {
        let command = self.command;
        let help = tied(&format!("{} {command} --help", me()));
        Trouble::Message(format!("{command}: {what}. See {help}"))
    }
}
