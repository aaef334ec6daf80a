//! What it takes to have a file on the disk, its name too.

use std::ffi::{c_char, c_int, c_uint, CString, OsStr};
use std::fs::{File, Metadata};
use std::io;
use std::os::unix::ffi::OsStrExt;
use std::os::unix::fs::MetadataExt;
use std::path::Path;

pub fn folder_of(path: &OsStr) -> &Path {
    match Path::new(path).parent() {
        Some(folder) if !folder.as_os_str().is_empty() => folder,
        _ => Path::new("."),
    }
}

/// What no other file has at the same time, whatever its names are.
pub fn id(about: &Metadata) -> (u64, u64) {
    (about.dev(), about.ino())
}

/// Has the names that its folder has by now reach the disk, if that can be asked for. It can't of a
/// folder that may be written and not be read, nor of any folder on some kinds of disks. The bytes
/// themselves are on the disk.
pub fn sync_folder_of(path: &OsStr) -> io::Result<()> {
    use io::ErrorKind::{InvalidInput, PermissionDenied, Unsupported};
    let synced = File::open(folder_of(path)).and_then(|folder| folder.sync_all());
    synced.or_else(|error| match error.kind() {
        PermissionDenied | InvalidInput | Unsupported => Ok(()),
        _ => Err(error),
    })
}

extern "C" {
    fn renameat2(
        from_folder: c_int,
        from: *const c_char,
        to_folder: c_int,
        to: *const c_char,
        how: c_uint,
    ) -> c_int;
    fn signal(number: c_int, handler: usize) -> usize;
    fn umask(bits: c_uint) -> c_uint;
}

/// The folder that the tool runs in, and the wish to take no other file's name, on Linux.
const AT_FDCWD: c_int = -100;
const RENAME_NOREPLACE: c_uint = 1;

/// Renames a file, unless something has the new name.
pub fn rename_to_free(from: &OsStr, to: &OsStr) -> io::Result<()> {
    let (from, to) = (CString::new(from.as_bytes())?, CString::new(to.as_bytes())?);
    let (old, new) = (from.as_ptr(), to.as_ptr());
    // Safe: both names are ended by a zero, and only read.
    match unsafe { renameat2(AT_FDCWD, old, AT_FDCWD, new, RENAME_NOREPLACE) } {
        0 => Ok(()),
        _ => Err(io::Error::last_os_error()),
    }
}

/// The signal of a write above the size that files may have, and the wish to hear nothing of it, on
/// Linux.
const SIGXFSZ: c_int = 25;
const SIG_IGN: usize = 1;

/// Such a write then fails, and is taken back, instead of ending the tool halfway.
pub fn outlive_a_limit() {
    // Safe: nothing is called when the signal comes.
    unsafe { signal(SIGXFSZ, SIG_IGN) };
}

/// Keeps what is begun from here on from everyone but the user. Gives the bits that the user wanted
/// no new file to have: they can't be asked for without setting others.
pub fn close_new_files() -> u32 {
    // Safe: it takes any bits, and never fails.
    unsafe { umask(0o077) }
}
