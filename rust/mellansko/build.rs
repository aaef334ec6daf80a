//! Links the archive of the proved calls: the one that a variable names, or else that of the
//! repository. Where the latter is missing or older than its sources, the toolchain proves them and
//! writes it first.

use std::path::{Path, PathBuf};
use std::process::{exit, Command};
use std::time::SystemTime;
use std::{env, fs, io};

/// The variable that names a ready archive.
const READY: &str = "MELLANSKO_STATICLIB";

fn main() {
    if let Err(message) = link() {
        eprintln!("{message}");
        exit(1);
    }
}

fn link() -> Result<(), String> {
    println!("cargo:rerun-if-env-changed={READY}");
    let archive = match env::var_os(READY) {
        Some(path) => ready(path.into())?,
        None => up_to_date()?,
    };
    // A copy of cargo's own, since `rt ci` takes away what the toolchain wrote.
    let folder = PathBuf::from(env::var_os("OUT_DIR").ok_or("cargo sets OUT_DIR")?);
    let copy = folder.join("libmellansko.a");
    found(fs::copy(&archive, &copy), &archive)?;
    println!("cargo:rustc-link-search=native={}", folder.display());
    println!("cargo:rustc-link-lib=static=mellansko");
    // For the tests that link it to C.
    println!("cargo:rustc-env=MELLANSKO_ARCHIVE={}", copy.display());
    Ok(())
}

/// The archive that the variable names. Neither the toolchain nor a source is needed then.
fn ready(archive: PathBuf) -> Result<PathBuf, String> {
    let named = format!("mellansko: {READY} is \"{}\"", archive.display());
    // Cargo runs this in the package's folder, which is seldom where the variable was set.
    if archive.is_relative() {
        return Err(format!("{named}, and has to be an absolute path"));
    }
    println!("cargo:rerun-if-changed={}", archive.display());
    match fs::metadata(&archive) {
        Ok(file) if file.is_file() => Ok(archive),
        Ok(_) => Err(format!("{named}, which is no file")),
        Err(error) => Err(format!("{named}, and that can't be read: {error}")),
    }
}

/// The repository's archive, made anew if it has to be.
fn up_to_date() -> Result<PathBuf, String> {
    let root = Path::new(env!("CARGO_MANIFEST_DIR")).join("../..");
    let root = found(root.canonicalize(), &root)?;
    let sources = sources(&root)?;
    for source in &sources {
        println!("cargo:rerun-if-changed={}", source.display());
    }
    let crates = root.join("crates");
    let folder = crates.join("mellansko");
    let archive = folder.join("out/libmellansko.a");
    if !is_newer(&archive, &crates, &sources)? {
        make(&folder)?;
    }
    Ok(archive)
}

/// The list of the crates, and the parts of each that the toolchain reads. It writes beside them.
fn sources(root: &Path) -> Result<Vec<PathBuf>, String> {
    let mut sources = vec![root.join("crates.txt")];
    let crates = root.join("crates");
    for entry in found(fs::read_dir(&crates), &crates)? {
        let folder = found(entry, &crates)?.path();
        let parts = ["src", "specs", "proofs"].map(|part| folder.join(part));
        sources.extend(parts.into_iter().filter(|part| part.exists()));
    }
    Ok(sources)
}

/// Whether the archive is there, and since it was written no source has changed and no crate's
/// folder has come or gone.
fn is_newer(archive: &Path, crates: &Path, sources: &[PathBuf]) -> Result<bool, String> {
    let Ok(written) = fs::metadata(archive).and_then(|archive| archive.modified()) else {
        return Ok(false);
    };
    let folders = fs::metadata(crates).and_then(|crates| crates.modified());
    if found(folders, crates)? >= written {
        return Ok(false);
    }
    for source in sources {
        if last_change(source)? >= written {
            return Ok(false);
        }
    }
    Ok(true)
}

/// When a file, or the folder or any file in it, was last changed. Links are not followed: an
/// editor's may lead nowhere.
fn last_change(path: &Path) -> Result<SystemTime, String> {
    let metadata = found(fs::symlink_metadata(path), path)?;
    let mut last = found(metadata.modified(), path)?;
    if metadata.is_dir() {
        for entry in found(fs::read_dir(path), path)? {
            last = last.max(last_change(&found(entry, path)?.path())?);
        }
    }
    Ok(last)
}

fn make(folder: &Path) -> Result<(), String> {
    let run = Command::new("rt")
        // For every processor of x86-64: the toolchain's default leaves out the oldest.
        .args(["lib", "--cpu", "x86-64"])
        .current_dir(folder)
        .output()
        .map_err(|error| {
            format!(
                "mellansko: the proved library has to be built, and that takes the Rattle toolchain: its command `rt` did \
                 not start ({error}). Install the toolchain, put `rt` on the PATH, and try again. Or, with a library that \
                 is ready, set {READY} to its absolute path."
            )
        })?;
    if run.status.success() {
        return Ok(());
    }
    let said = [run.stdout, run.stderr].concat();
    Err(format!(
        "mellansko: `rt lib --cpu x86-64` failed in {}:\n{}",
        folder.display(),
        String::from_utf8_lossy(&said)
    ))
}

fn found<T>(result: io::Result<T>, path: &Path) -> Result<T, String> {
    result.map_err(|error| format!("mellansko: {}: {error}", path.display()))
}
