//! Folders and files for a test of its own.

use std::env;
use std::ffi::OsStr;
use std::fs;
use std::io::{self, Write};
use std::ops::Deref;
use std::os::unix::fs::{symlink, MetadataExt, PermissionsExt};
use std::os::unix::process::CommandExt;
use std::path::{Path, PathBuf};
use std::process::{self, Command};
use std::thread;
use std::time::{Duration, SystemTime};

/// A folder, empty at first. If its test succeeds it is removed.
pub struct Folder(PathBuf);

impl Folder {
    /// Its name is that of the test and of the run, and of nothing else.
    pub fn new(name: &str) -> Folder {
        let name = format!("tool-{name}-{}", process::id());
        let path = Path::new(env!("CARGO_TARGET_TMPDIR")).join(name);
        if let Err(error) = fs::remove_dir_all(&path) {
            assert_eq!(error.kind(), io::ErrorKind::NotFound, "{error}");
        }
        fs::create_dir_all(&path).expect("a folder");
        Folder(path)
    }

    pub fn file(&self, name: impl AsRef<OsStr>, bytes: &[u8]) -> PathBuf {
        let path = self.0.join(name.as_ref());
        fs::write(&path, bytes).expect("a file");
        path
    }

    /// A file of so many zeros, which takes no room on the disk.
    pub fn zeros(&self, name: impl AsRef<OsStr>, length: u64) -> PathBuf {
        let path = self.file(name, b"");
        let file = fs::File::options().write(true).open(&path).expect("a file");
        file.set_len(length).expect("a length");
        path
    }

    fn remove_longest(&self) {
        for entry in fs::read_dir(&self.0).into_iter().flatten().flatten() {
            if entry.metadata().is_ok_and(|about| about.len() > 1 << 29) {
                let _ = fs::remove_file(entry.path());
            }
        }
    }

    /// The names of all that is in it.
    pub fn names(&self) -> Vec<String> {
        let entries = fs::read_dir(&self.0).expect("the folder");
        let name = |entry: io::Result<fs::DirEntry>| entry.expect("an entry").file_name();
        let mut names: Vec<String> = entries
            .map(|entry| name(entry).to_string_lossy().into_owned())
            .collect();
        names.sort();
        names
    }
}

impl Deref for Folder {
    type Target = Path;

    fn deref(&self) -> &Path {
        &self.0
    }
}

impl Drop for Folder {
    fn drop(&mut self) {
        match thread::panicking() {
            false => drop(fs::remove_dir_all(&self.0)),
            // What is left is to be looked at, but for the longest journals: they would fill the disk.
            true => self.remove_longest(),
        }
    }
}

/// A name as it stands in advice: the folder of the tests may be called anything.
pub fn in_advice(path: &Path) -> String {
    let name = path.to_str().expect("UTF-8");
    match name.contains([' ', '\'', '(', ')', '&', '~', '#', '!', '$']) {
        true => format!("'{}'", name.replace('\'', "'\\''")),
        false => name.to_string(),
    }
}

/// Says why a part of a test was left out.
pub fn left_out(why: &str) {
    writeln!(io::stderr(), "LEFT OUT: {why}").expect("standard error");
}

/// Opens both ends of a named pipe, so that nobody waits for the other any more.
pub fn release(fifo: &Path) {
    let both = fs::File::options().read(true).write(true).open(fifo);
    drop(both.expect("the pipe"));
}

/// A folder with links to these programs, to be all of a PATH. None if one of them is missing.
pub fn programs(folder: &Path, names: &[&str]) -> Option<PathBuf> {
    let bin = folder.join("bin");
    fs::create_dir_all(&bin).expect("a folder");
    let path = env::var_os("PATH").unwrap_or_default();
    for name in names {
        let found = env::split_paths(&path).map(|folder| folder.join(name));
        let Some(program) = found.into_iter().find(|program| program.is_file()) else {
            left_out(&format!("what takes {name}, which is not on the PATH"));
            return None;
        };
        symlink(program, bin.join(name)).expect("a link");
    }
    Some(bin)
}

/// A program for the shell.
pub fn program(path: &Path, text: &str) {
    fs::write(path, format!("#!/bin/sh\n{text}\n")).expect("a program");
    fs::set_permissions(path, fs::Permissions::from_mode(0o755)).expect("permissions");
}

/// As if the file or folder was last changed so many minutes ago.
pub fn set_age(path: &Path, minutes: u64) {
    let time = SystemTime::now() - Duration::from_secs(60 * minutes);
    let file = fs::File::open(path).expect("a file");
    file.set_modified(time).expect("its time");
}

/// The same for all that is in a folder too.
pub fn set_ages(path: &Path, minutes: u64) {
    if path.is_dir() {
        for entry in fs::read_dir(path).expect("a folder") {
            set_ages(&entry.expect("an entry").path(), minutes);
        }
    }
    set_age(path, minutes);
}

/// Has the command run as a user who may read and write only what everyone may. None if that can't
/// be done here.
pub fn as_nobody(command: &mut Command) -> Option<&mut Command> {
    const NOBODY: u32 = 65_534;
    let me = fs::metadata("/proc/self").ok()?.uid();
    if me == 0 {
        command.uid(NOBODY).gid(NOBODY);
        let mut trial = Command::new(command.get_program());
        trial.arg("--version").uid(NOBODY).gid(NOBODY);
        if !trial.output().is_ok_and(|output| output.status.success()) {
            left_out("what lacks permission: run by root, and others can't reach the tool");
            return None;
        }
    }
    Some(command)
}
