//! What the user can type as it stands.

use crate::words::ends_or_turns;
use crate::wrap::{tied, TIED};
use std::ffi::{OsStr, OsString};
use std::os::unix::ffi::OsStrExt;
use std::path::{Path, PathBuf};
use std::{env, iter};

/// The tool by the name that it was called with: the script that starts it says, or the system.
pub fn me() -> String {
    let script = env::var_os("MELLANSKO").filter(|name| !name.is_empty());
    let name = script.or_else(|| env::args_os().next().filter(|name| !name.is_empty()));
    quoted(&name.unwrap_or("mellansko".into()))
}

/// The tool with these words, and then a file's name and what follows it.
pub fn typed(words: &str, file: &OsStr, rest: &str) -> String {
    let command = format!("{} {words} {} {rest}", me(), operand(file));
    tied(command.trim_end())
}

/// A file's name as a program takes it that knows options. A dash alone is standard input.
pub fn operand(file: &OsStr) -> String {
    let name = quoted(file);
    match file.as_bytes().starts_with(b"-") && file != "-" {
        true => format!("--{TIED}{name}"),
        false => name,
    }
}

/// A word as a shell takes it, with nothing in it that a terminal would obey.
pub fn quoted(word: &OsStr) -> String {
    let unseen = |c: char| c.is_control() || ends_or_turns(c);
    let plain = |c: char| c.is_alphanumeric() || "-_./,:+@%".contains(c);
    match word.to_str() {
        Some(text) if !text.is_empty() && text.chars().all(plain) => text.into(),
        Some(text) if !text.contains(unseen) => tied(&format!("'{}'", text.replace('\'', "'\\''"))),
        _ => by_bytes(word),
    }
}

/// In the quotes that take any byte by its number.
fn by_bytes(word: &OsStr) -> String {
    let byte = |&byte: &u8| match byte {
        b'\'' | b'\\' => format!("\\{}", char::from(byte)),
        b' ' => TIED.into(),
        b'!'..=b'~' => char::from(byte).into(),
        _ => format!("\\{byte:03o}"),
    };
    let bytes: String = word.as_bytes().iter().map(byte).collect();
    format!("$'{bytes}'")
}

/// The tool, to mend a journal into a new one. Neither name is a dash alone.
pub fn to_mend(bad: &OsStr, new: &OsStr) -> String {
    let dash = |name: &OsStr| name.as_bytes().starts_with(b"-");
    let ended = if dash(bad) || dash(new) { "-- " } else { "" };
    tied(&format!(
        "{} mend {ended}{} {}",
        me(),
        quoted(bad),
        quoted(new)
    ))
}

/// The tool with these words, on a new file to which that is written first which the word names. It
/// can be typed in a pipe in place of the tool that was there.
pub fn by_way_of_a_file(words: &str, word: &OsStr) -> String {
    let first = OsStr::new("journal.log");
    let file = free(iter::once(first.into()).chain(others(first)));
    let (from, to) = (operand(word), quoted(&file));
    tied(&format!("cat {from} >{to} && {} {words} {to}", me()))
}

/// A name like this one that no file has yet.
pub fn another(file: &OsStr) -> OsString {
    free(others(file))
}

fn others(file: &OsStr) -> impl Iterator<Item = PathBuf> + '_ {
    (2..).map(|number| like(file, &format!("-{number}")))
}

/// The same, for what is mended of this one.
pub fn for_mended(file: &OsStr) -> OsString {
    let more = (2..).map(|number| like(file, &format!("-mended-{number}")));
    free(iter::once(like(file, "-mended")).chain(more))
}

/// The name of a file in the same folder, with this at the end of what comes before the last point.
fn like(file: &OsStr, end: &str) -> PathBuf {
    let path = Path::new(file);
    let mut name = path.file_stem().unwrap_or(file).to_os_string();
    name.push(end);
    if let Some(extension) = path.extension() {
        name.push(".");
        name.push(extension);
    }
    path.with_file_name(name)
}

/// The first that no file has.
fn free(mut names: impl Iterator<Item = PathBuf>) -> OsString {
    let free = names.find(|path| path.symlink_metadata().is_err());
    free.expect("fewer files than numbers").into_os_string()
}
