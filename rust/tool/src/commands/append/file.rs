//! The file that a record is appended to: looked for, locked, and made longer.

use crate::disk::{folder_of, outlive_a_limit, sync_folder_of};
use crate::journal::{refuse_too_long, why_refused};
use crate::shell::typed;
use crate::trouble::{in_words, Trouble};
use crate::words::{grouped, shown};
use mellansko::{NotRead, Refusal};
use std::ffi::OsStr;
use std::fs::{self, File, OpenOptions, TryLockError};
use std::io::{self, Write};
use std::os::unix::fs::MetadataExt;

/// The file, opened, or none if it is to be a new one.
pub fn found(path: &OsStr, new: bool) -> Result<Option<File>, Trouble> {
    match new {
        true => absent(path).map(|()| None),
        false => existing(path).map(Some),
    }
}

pub fn nothing_appended(path: &OsStr, why: &str) -> Trouble {
    Trouble::of(path, &format!("nothing was appended: {why}"))
}

pub fn refused(path: &OsStr, refusal: Refusal) -> Trouble {
    nothing_appended(path, &why_refused(refusal, path))
}

/// Makes sure that there is no such file yet, and a folder for it.
fn absent(path: &OsStr) -> Result<(), Trouble> {
    let trouble = |error| not_begun(path, &error);
    if fs::exists(path).map_err(trouble)? {
        return Err(there_already(path));
    }
    if fs::symlink_metadata(path).is_ok() {
        let why = "it is a link to a file that is not there. Name that file instead";
        return Err(nothing_appended(path, why));
    }
    let folder = folder_of(path);
    if !fs::exists(folder).map_err(trouble)? {
        let folder = shown(folder.as_os_str());
        let why = format!("there is no folder {folder}. Make it first, or check the name");
        return Err(nothing_appended(path, &why));
    }
    Ok(())
}

fn not_begun(path: &OsStr, error: &io::Error) -> Trouble {
    if error.kind() != io::ErrorKind::PermissionDenied {
        return Trouble::io(path, "be begun", error);
    }
    let folder = shown(folder_of(path).as_os_str());
    let why = format!("permission is denied in the folder {folder}. Choose another");
    nothing_appended(path, &why)
}

fn there_already(path: &OsStr) -> Trouble {
    let add = typed("append", path, "");
    nothing_appended(path, &format!("it is there already. To add to it: {add}"))
}

fn existing(path: &OsStr) -> Result<File, Trouble> {
    let trouble = |error: io::Error| match error.kind() {
        io::ErrorKind::NotFound => {
            let new = typed("append --new", path, "");
            let why =
                format!("there is no such file. Check the name; to begin a new journal: {new}");
            nothing_appended(path, &why)
        }
        _ => Trouble::io(path, "be appended to", &error),
    };
    let metadata = fs::metadata(path).map_err(trouble)?;
    if metadata.is_dir() {
        return Err(trouble(io::ErrorKind::IsADirectory.into()));
    }
    if !metadata.is_file() {
        return Err(nothing_appended(path, "it is not a plain file"));
    }
    let file = OpenOptions::new().read(true).append(true).open(path);
    let file = file.map_err(trouble)?;
    // Before anything of it is read, and before a record is typed for it.
    refuse_too_long(&file).map_err(|not_read| match not_read {
        NotRead::Io(error) => trouble(error),
        NotRead::Refused(refusal) => refused(path, refusal),
    })?;
    Ok(file)
}

/// Keeps every other append off the file until this one ends.
fn lock(file: &File, path: &OsStr) -> Result<(), Trouble> {
    match file.try_lock() {
        Ok(()) => Ok(()),
        Err(TryLockError::WouldBlock) => {
            let why = "another program has it locked. Try again when that is done";
            Err(nothing_appended(path, why))
        }
        Err(TryLockError::Error(error)) => Err(Trouble::io(path, "be locked", &error)),
    }
}

/// Keeps the file, which still has its name, from being changed by another append until this one
/// ends.
pub fn hold(file: &File, path: &OsStr) -> Result<(), Trouble> {
    lock(file, path)?;
    let trouble = |error: io::Error| Trouble::io(path, "be read", &error);
    let named = fs::metadata(path).map_err(trouble)?;
    let locked = file.metadata().map_err(trouble)?;
    if (named.dev(), named.ino()) != (locked.dev(), locked.ino()) {
        let why = "another file has its name by now. Try again";
        return Err(nothing_appended(path, why));
    }
    Ok(())
}

/// Puts the added bytes after those that the file has; it gets all of them or none.
pub fn store(old: Option<File>, path: &OsStr, used: usize, added: &[u8]) -> Result<(), Trouble> {
    let new = old.is_none();
    let trouble = |error: io::Error| Trouble::io(path, "be written", &error);
    let file = match old {
        Some(file) => file,
        None => begun(path)?,
    };
    if file.metadata().map_err(trouble)?.len() != used as u64 {
        let why = "another program wrote to it meanwhile. Try again";
        return Err(nothing_appended(path, why));
    }
    let Err(error) = put(&file, path, added, new) else {
        return Ok(());
    };
    let undone = match new {
        true => fs::remove_file(path),
        false => file.set_len(used as u64),
    };
    Err(match undone {
        Ok(()) => nothing_appended(path, &format!("it could not be written: {}", in_words(&error))),
        Err(_) => Trouble::of(
            path,
            &format!(
                "could not be written ({error}), nor be cut back: what it holds from byte {} on may not be all there",
                grouped(used)
            ),
        ),
    })
}

fn begun(path: &OsStr) -> Result<File, Trouble> {
    let mut options = OpenOptions::new();
    let file = options.append(true).create_new(true).open(path);
    let file = file.map_err(|error| match error.kind() {
        io::ErrorKind::AlreadyExists => there_already(path),
        _ => not_begun(path, &error),
    })?;
    lock(&file, path)?;
    Ok(file)
}

/// After what the file holds, and down to the disk; a new file's name too.
fn put(mut file: &File, path: &OsStr, added: &[u8], new: bool) -> io::Result<()> {
    outlive_a_limit();
    file.write_all(added)?;
    file.sync_all()?;
    match new {
        true => sync_folder_of(path),
        false => Ok(()),
    }
}
