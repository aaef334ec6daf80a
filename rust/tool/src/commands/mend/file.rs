//! The new journal's file: under another name until all of it is on the disk.

use super::allowed;
use super::name::{not_begun, not_written, taken};
use super::Names;
use crate::disk::{folder_of, id, outlive_a_limit, rename_to_free, sync_folder_of};
use crate::trouble::{in_words, note, Trouble};
use crate::words::shown;
use std::ffi::OsStr;
use std::fs::{self, File, Metadata, OpenOptions};
use std::io::{self, Write};
use std::os::unix::fs::OpenOptionsExt;
use std::path::{Path, PathBuf};
use std::process;

/// Writes the new journal, and gives it its name. If that fails, what was written is removed; what
/// can't be removed is named.
pub fn store(names: &Names, log: &[u8], bad: &Metadata) -> Result<(), Trouble> {
    let (file, unfinished) = begun(names)?;
    allowed::as_with(bad, &file);
    let stored = put(&file, log).and_then(|()| put_in_place(&file, &unfinished, names));
    let left = remove(&unfinished);
    stored.map_err(|why| not_written(names, &format!("{why}{left}")))?;
    sync_folder_of(names.new).map_err(|error| take_back(names, &error, &left))?;
    if !left.is_empty() {
        note(&format!("{}: is complete{left}", shown(names.new)));
    }
    Ok(())
}

/// A new file in the same folder, whose name says what it is.
fn begun(names: &Names) -> Result<(File, PathBuf), Trouble> {
    let me = process::id();
    let mut options = OpenOptions::new();
    options.write(true).create_new(true).mode(allowed::OWNER);
    let mut number = 1;
    loop {
        let name = format!("mellansko-mend-{me}-{number}.unfinished");
        let path = folder_of(names.new).join(name);
        match options.open(&path) {
            Ok(file) => return Ok((file, path)),
            // Left by one that was ended halfway.
            Err(error) if error.kind() == io::ErrorKind::AlreadyExists => number += 1,
            Err(error) => return Err(not_written(names, &not_begun(names, &error))),
        }
    }
}

/// All of it, down to the disk.
fn put(mut file: &File, log: &[u8]) -> Result<(), String> {
    outlive_a_limit();
    let written = file.write_all(log).and_then(|()| file.sync_all());
    written.map_err(|error| could_not(&error))
}

fn could_not(error: &io::Error) -> String {
    format!("it could not be written: {}", in_words(error))
}

/// Gives the file its name, unless something has that name by now.
fn put_in_place(file: &File, unfinished: &Path, names: &Names) -> Result<(), String> {
    let Err(error) = named(unfinished, names) else {
        return Ok(());
    };
    // A disk across a network may lose its answer, and when it is asked again it has done it.
    if is_called(file, names.new) {
        return Ok(());
    }
    Err(match error.kind() {
        io::ErrorKind::AlreadyExists => taken(names),
        io::ErrorKind::InvalidInput | io::ErrorKind::Unsupported => {
            "this disk has no way to make sure that nothing is written over. Name a file on \
             another disk, and then copy it"
                .into()
        }
        _ => could_not(&error),
    })
}

/// By a second name. A disk that knows no such, as that of a memory stick, can give it another.
fn named(unfinished: &Path, names: &Names) -> io::Result<()> {
    match fs::hard_link(unfinished, names.new) {
        Err(error) if error.kind() != io::ErrorKind::AlreadyExists => {
            rename_to_free(unfinished.as_os_str(), names.new)
        }
        linked => linked,
    }
}

/// Whether that is this very file's name.
fn is_called(file: &File, name: &OsStr) -> bool {
    let named = fs::symlink_metadata(name).map(|about| id(&about));
    let file = file.metadata().map(|about| id(&about));
    matches!((named, file), (Ok(named), Ok(file)) if named == file)
}

/// Gives what is to be said if that fails. It is gone already where it was given another name.
fn remove(unfinished: &Path) -> String {
    match fs::remove_file(unfinished) {
        Err(error) if error.kind() != io::ErrorKind::NotFound => {
            let name = shown(unfinished.as_os_str());
            format!(". {name} could not be removed; it is not needed")
        }
        _ => String::new(),
    }
}

/// A new journal whose name may not have reached the disk, and what else is left.
fn take_back(names: &Names, error: &io::Error, left: &str) -> Trouble {
    match fs::remove_file(names.new) {
        Ok(()) => not_written(names, &format!("{}{left}", could_not(error))),
        Err(why) => Trouble::of(
            names.new,
            &format!(
                "it was written, but after a power cut its name may be missing, since its folder \
                 could not be written: {}. It could not be removed: {}{left}",
                in_words(error),
                in_words(&why)
            ),
        ),
    }
}
