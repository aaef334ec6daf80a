//! Put before the system's own calls by LD_PRELOAD: a disk that fails, is full or knows no second
//! names, and programs that write to a journal without asking, or put another in its place. Not a
//! part of any test program.

use std::env;
use std::ffi::{c_char, c_int, c_long, c_uint, c_void, CStr};
use std::fs::{self, OpenOptions};
use std::io::Write;
use std::os::fd::AsRawFd;
use std::os::unix::ffi::OsStrExt;
use std::process;
use std::thread;
use std::time::Duration;

extern "C" {
    fn syscall(number: c_long, ...) -> c_long;
    fn __errno_location() -> *mut c_int;
}

const READ: c_long = 0;
const WRITE: c_long = 1;
const OPEN: c_long = 2;
const FLOCK: c_long = 73;
const FSYNC: c_long = 74;
const UNLINK: c_long = 87;
const LINKAT: c_long = 265;
const RENAMEAT2: c_long = 316;
const EPERM: c_int = 1;
const ENOENT: c_int = 2;
const EIO: c_int = 5;
const EEXIST: c_int = 17;
const EINVAL: c_int = 22;
const ENOSPC: c_int = 28;
const EOPNOTSUPP: c_int = 95;

/// Adds a line to the file that TRACE names: the call, and the file that it is about.
unsafe fn trace(call: &str, fd: c_int) {
    let Some(path) = env::var_os("TRACE") else {
        return;
    };
    let about = fs::read_link(format!("/proc/self/fd/{fd}")).unwrap_or_default();
    let line = format!("{call} {}\n", about.display());
    if let Ok(file) = OpenOptions::new().append(true).create(true).open(path) {
        // Not by the call below, which is traced.
        syscall(WRITE, file.as_raw_fd(), line.as_ptr(), line.len());
    }
}

/// The number that a variable has.
fn number(name: &str) -> Option<usize> {
    env::var(name).ok().and_then(|number| number.parse().ok())
}

/// Whether a variable asks for this fault; if so, it is what the call fails with.
unsafe fn fails(name: &str, error: c_int) -> bool {
    let asked = env::var_os(name).is_some();
    if asked {
        *__errno_location() = error;
    }
    asked
}

/// Fails from the n-th call on, if FAIL_FSYNC says an n, with the error that FAIL_WITH
/// says. Before that, a file has the name by then that APPEAR says; or, if DIE is set, the program is
/// ended.
#[no_mangle]
pub unsafe extern "C" fn fsync(fd: c_int) -> c_int {
    trace("fsync", fd);
    if let Some(path) = env::var_os("APPEAR") {
        let other = OpenOptions::new().write(true).create_new(true).open(path);
        let _ = other.and_then(|mut file| file.write_all(b"theirs"));
    }
    if env::var_os("DIE").is_some() {
        process::abort();
    }
    static mut CALLS: usize = 0;
    CALLS += 1;
    if number("FAIL_FSYNC").is_some_and(|first| CALLS >= first) {
        *__errno_location() = number("FAIL_WITH").map_or(EIO, |error| error as c_int);
        return -1;
    }
    syscall(FSYNC, fd) as c_int
}

/// Before the file is opened that SWAP names, the one that is called other gets its name.
#[no_mangle]
pub unsafe extern "C" fn open64(path: *const c_char, how: c_int, mode: c_uint) -> c_int {
    if let Some(name) = env::var_os("SWAP") {
        if CStr::from_ptr(path).to_bytes() == name.as_bytes() {
            let _ = fs::rename("other", name);
        }
    }
    syscall(OPEN, path, how, mode) as c_int
}

/// Before a lock is taken, the file that REPLACE names is moved aside, and an empty one has its name.
/// Fails, if NO_LOCKS is set.
#[no_mangle]
pub unsafe extern "C" fn flock(fd: c_int, how: c_int) -> c_int {
    if fails("NO_LOCKS", EOPNOTSUPP) {
        return -1;
    }
    if let Some(path) = env::var_os("REPLACE") {
        let _ = fs::rename(&path, "aside").and_then(|()| fs::write(path, b""));
    }
    syscall(FLOCK, fd, how) as c_int
}

/// Takes a while of so many milliseconds, if SLOW says how many.
fn dawdle() {
    if let Some(milliseconds) = number("SLOW") {
        thread::sleep(Duration::from_millis(milliseconds as u64));
    }
}

/// Files are slow, if SLOW is set. When one has been read to its end, a byte is added to the one that
/// GROW names, and the first one of the file that CHANGE names is changed, or as many as CHANGE_TO
/// has. Files give no more than n bytes in all, and then fail, if BAD_FROM says an n.
#[no_mangle]
pub unsafe extern "C" fn read(fd: c_int, to: *mut c_void, mut most: usize) -> isize {
    static mut GIVEN: usize = 0;
    if fd > 2 {
        dawdle();
    }
    if let (Some(all), 3..) = (number("BAD_FROM"), fd) {
        if GIVEN == all && fails("BAD_FROM", EIO) {
            return -1;
        }
        most = most.min(all - GIVEN);
    }
    let got = syscall(READ, fd, to, most) as isize;
    GIVEN += if fd > 2 { got.max(0) as usize } else { 0 };
    if got == 0 && fd > 2 {
        if let Some(path) = env::var_os("GROW") {
            let other = OpenOptions::new().append(true).open(path);
            let _ = other.and_then(|mut file| file.write_all(b"x"));
        }
        if let Some(path) = env::var_os("CHANGE") {
            let other = OpenOptions::new().write(true).open(path);
            let _ = other.and_then(|mut file| file.write_all(&changed()));
        }
    }
    got
}

/// The bytes whose numbers CHANGE_TO has, with spaces between them.
fn changed() -> Vec<u8> {
    let numbers = env::var("CHANGE_TO").unwrap_or("120".into());
    let number = |word: &str| word.parse().expect("a byte's number");
    numbers.split(' ').map(number).collect()
}

/// Files take no more than n bytes in all, if ROOM says an n.
#[no_mangle]
pub unsafe extern "C" fn write(fd: c_int, from: *const c_void, most: usize) -> isize {
    if fd > 2 {
        trace("write", fd);
    }
    static mut TAKEN: usize = 0;
    let (Some(room), 3..) = (number("ROOM"), fd) else {
        return syscall(WRITE, fd, from, most) as isize;
    };
    if most > 0 && TAKEN == room && fails("ROOM", ENOSPC) {
        return -1;
    }
    let written = syscall(WRITE, fd, from, most.min(room - TAKEN)) as isize;
    TAKEN += written.max(0) as usize;
    written
}

/// What a call answers whose first answer was lost on the way, if LOST_REPLY is set, so that it was
/// made a second time.
unsafe fn made_again(first: c_long, second: c_int) -> c_int {
    match first == 0 && fails("LOST_REPLY", second) {
        true => -1,
        false => first as c_int,
    }
}

/// Fails, if NO_LINKS is set, as on a disk that knows no second names.
#[no_mangle]
pub unsafe extern "C" fn linkat(
    from_folder: c_int,
    from: *const c_char,
    to_folder: c_int,
    to: *const c_char,
    how: c_int,
) -> c_int {
    trace("linkat", -1);
    match fails("NO_LINKS", EPERM) {
        true => -1,
        false => {
            let linked = syscall(LINKAT, from_folder, from, to_folder, to, how);
            made_again(linked, EEXIST)
        }
    }
}

/// Fails, if NO_RENAMES is set, as on a disk that does not look whether the name is free.
#[no_mangle]
pub unsafe extern "C" fn renameat2(
    from_folder: c_int,
    from: *const c_char,
    to_folder: c_int,
    to: *const c_char,
    how: c_uint,
) -> c_int {
    trace("renameat2", -1);
    match fails("NO_RENAMES", EINVAL) {
        true => -1,
        false => {
            let renamed = syscall(RENAMEAT2, from_folder, from, to_folder, to, how);
            made_again(renamed, ENOENT)
        }
    }
}

/// Fails n times, if NO_REMOVALS says an n.
#[no_mangle]
pub unsafe extern "C" fn unlink(name: *const c_char) -> c_int {
    trace("unlink", -1);
    static mut CALLS: usize = 0;
    CALLS += 1;
    match number("NO_REMOVALS").is_some_and(|most| CALLS <= most) && fails("NO_REMOVALS", EPERM) {
        true => -1,
        false => syscall(UNLINK, name) as c_int,
    }
}
