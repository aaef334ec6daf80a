//! The calls of `faults.rs`, put before the system's own.

use super::files::{left_out, Folder};
use super::ran;
use std::path::{Path, PathBuf};
use std::process::{Command, Stdio};

/// Built for LD_PRELOAD. None where the numbers of calls in it are not the system's.
pub fn faults(folder: &Folder) -> Option<PathBuf> {
    if !cfg!(all(target_os = "linux", target_arch = "x86_64")) {
        left_out("a disk that fails: only for Linux on x86-64");
        return None;
    }
    let library = folder.join("faults.so");
    let source = Path::new(env!("CARGO_MANIFEST_DIR")).join("tests/common/faults.rs");
    let mut rustc = Command::new("rustc");
    rustc.args(["--edition", "2021", "--crate-type", "cdylib", "-o"]);
    rustc.arg(&library).arg(source).stdin(Stdio::null());
    let built = ran(&mut rustc);
    assert_eq!(built.status, Some(0), "{}", built.err);
    Some(library)
}

/// Has a command run with these faults.
pub fn with(library: &Path, faults: &[(&str, &str)], mut command: Command) -> Command {
    // The library by its name and its folder: LD_PRELOAD takes no path with a space.
    let [name, folder] = [library.file_name(), library.parent().map(Path::as_os_str)];
    command.env("LD_PRELOAD", name.expect("a name"));
    command.env("LD_LIBRARY_PATH", folder.expect("a folder"));
    command.envs(faults.iter().copied());
    command
}
