//! A terminal for the tool to run on, of which the test holds the other end.

use super::files::left_out;
use super::finish;
use std::ffi::{c_char, c_int, c_ulong, CStr};
use std::fs::{File, OpenOptions};
use std::io::Read;
use std::os::fd::AsRawFd;
use std::os::unix::fs::OpenOptionsExt;
use std::path::Path;
use std::process::{Command, Stdio};
use std::sync::atomic::{AtomicBool, Ordering};
use std::sync::Arc;
use std::thread::{self, JoinHandle};

extern "C" {
    fn grantpt(fd: c_int) -> c_int;
    fn unlockpt(fd: c_int) -> c_int;
    fn ptsname_r(fd: c_int, name: *mut c_char, length: usize) -> c_int;
    fn ioctl(fd: c_int, request: c_ulong, ...) -> c_int;
}

/// Whether this system has terminals to give. Says so if it has not.
pub fn is_there() -> bool {
    let there = File::open("/dev/ptmx").is_ok() && Path::new("/dev/pts").is_dir();
    if !there {
        left_out("what takes a terminal: there is no /dev/ptmx or no /dev/pts");
    }
    there
}

/// The test's end, and the tool's.
pub fn terminal() -> (File, File) {
    let near = open("/dev/ptmx");
    let mut name = [0; 100];
    // Safe: the name is written into that many bytes, with a zero at its end.
    let name = unsafe {
        assert_eq!(grantpt(near.as_raw_fd()), 0);
        assert_eq!(unlockpt(near.as_raw_fd()), 0);
        assert_eq!(
            ptsname_r(near.as_raw_fd(), name.as_mut_ptr(), name.len()),
            0
        );
        CStr::from_ptr(name.as_ptr())
    };
    let far = open(name.to_str().expect("a name in plain letters"));
    (near, far)
}

/// The same, of so many columns and rows.
pub fn terminal_of(columns: u16, rows: u16) -> (File, File) {
    const TIOCSWINSZ: c_ulong = 0x5414;
    let (near, far) = terminal();
    let size = [rows, columns, 0, 0];
    // Safe: the system reads a size, which is four numbers of two bytes.
    let set = unsafe { ioctl(far.as_raw_fd(), TIOCSWINSZ, size.as_ptr()) };
    assert_eq!(set, 0);
    (near, far)
}

/// Runs a program with standard output and standard error on a terminal of this size, and this on
/// standard input. Gives its status and all that the terminal shows.
pub fn ran_on(size: (u16, u16), command: &mut Command, input: &[u8]) -> (Option<i32>, String) {
    let (near, far) = terminal_of(size.0, size.1);
    let showing = shown(near);
    command.stdin(Stdio::piped());
    command
        .stdout(far.try_clone().expect("a terminal"))
        .stderr(far);
    let child = command.spawn().expect("the program starts");
    // So that the program alone holds its end.
    command.stdout(Stdio::null()).stderr(Stdio::null());
    let ran = finish(child, input.to_vec());
    (ran.status, without_progress(&showing.all()))
}

/// What erases a line that shows how far the tool is.
pub const ERASE: &str = "\r\x1b[K";

/// What is left on the screen: of each row, what came after it was last erased.
pub fn without_progress(text: &str) -> String {
    let left = |row: &'_ str| row.rsplit(ERASE).next().unwrap_or(row).to_string();
    let rows: Vec<String> = text.split("\r\n").map(left).collect();
    rows.join("\n")
}

fn open(name: &str) -> File {
    // Not to become the terminal that rules the test.
    const O_NOCTTY: i32 = 0o400;
    let mut options = OpenOptions::new();
    options.read(true).write(true).custom_flags(O_NOCTTY);
    options.open(name).expect(name)
}

/// What a terminal shows, while the tool runs and in the end.
pub struct Showing {
    begun: Arc<AtomicBool>,
    all: JoinHandle<String>,
}

impl Showing {
    /// Whether anything is shown yet.
    pub fn has_begun(&self) -> bool {
        self.begun.load(Ordering::SeqCst)
    }

    /// All of it, up to when the tool's end is closed.
    pub fn all(self) -> String {
        self.all.join().expect("what was shown")
    }
}

pub fn shown(mut near: File) -> Showing {
    let begun = Arc::new(AtomicBool::new(false));
    let came = begun.clone();
    let all = thread::spawn(move || {
        let mut text = Vec::new();
        let mut piece = [0; 4_096];
        // The end comes as an error.
        while let Ok(read @ 1..) = near.read(&mut piece) {
            text.extend_from_slice(&piece[..read]);
            came.store(true, Ordering::SeqCst);
        }
        String::from_utf8(text).expect("text")
    });
    Showing { begun, all }
}
