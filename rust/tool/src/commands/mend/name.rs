//! The new journal's name, which is to be free.

use super::Names;
use crate::disk::{folder_of, id};
use crate::shell::{another, for_mended, to_mend};
use crate::trouble::{in_words, Trouble};
use crate::words::shown;
use std::ffi::OsStr;
use std::fs;
use std::io;
use std::os::unix::ffi::OsStrExt;

/// Why there is no new journal.
pub fn not_written(names: &Names, why: &str) -> Trouble {
    Trouble::of(names.new, &format!("nothing was written: {why}"))
}

/// Makes sure that there is a folder, and in it nothing of that name: no file, no folder, no link.
pub fn make_sure_it_is_free(names: &Names) -> Result<(), Trouble> {
    let why = match fs::symlink_metadata(names.new) {
        Ok(_) => Some(taken(names)),
        Err(error) if error.kind() != io::ErrorKind::NotFound => Some(not_begun(names, &error)),
        Err(_) => impossible(names.new),
    };
    why.map_or(Ok(()), |why| Err(not_written(names, &why)))
}

/// Why no file can have a name that nothing has.
fn impossible(new: &OsStr) -> Option<String> {
    let folder = folder_of(new);
    if !folder.exists() {
        let folder = shown(folder.as_os_str());
        return Some(format!(
            "there is no folder {folder}. Make it first, or check the name"
        ));
    }
    let last = new.as_bytes().rsplit(|&byte| byte == b'/').next();
    let missing = last.is_none_or(|last| matches!(last, b"" | b"." | b".."));
    missing.then(|| "a file's name is missing after the last slash".into())
}

/// Why a name that something has is not given to the new journal.
pub fn taken(names: &Names) -> String {
    let bad = fs::metadata(names.bad).map(|bad| id(&bad)).ok();
    let (what, free) = match fs::metadata(names.new) {
        Ok(new) if new.is_dir() => return "it is a folder. Name a file in it".into(),
        Ok(new) if bad == Some(id(&new)) => (
            "it is the bad journal itself, which is only read",
            for_mended(names.bad),
        ),
        Ok(_) => (
            "it is there already, and nothing is written over",
            another(names.new),
        ),
        Err(_) => ("it is a link that leads nowhere", another(names.new)),
    };
    let other = to_mend(names.bad, &free);
    format!("{what}. To write to another name: {other}")
}

/// Why nothing can be begun in the folder.
pub fn not_begun(names: &Names, error: &io::Error) -> String {
    let folder = shown(folder_of(names.new).as_os_str());
    match error.kind() {
        io::ErrorKind::PermissionDenied => {
            format!("permission is denied in the folder {folder}. Choose another")
        }
        io::ErrorKind::ReadOnlyFilesystem => {
            format!("the folder {folder} is on a disk that can only be read. Choose another")
        }
        _ => format!("it could not be begun: {}", in_words(error)),
    }
}
