//! The script that builds the tool if need be, and starts it.

#[macro_use]
mod common;

use common::files::{program, programs, set_age, set_ages, Folder};
use common::{ran, Ran};
use std::fs;
use std::os::unix::fs::symlink;
use std::path::{Path, PathBuf};
use std::process::{Command, Stdio};
use std::sync::{Mutex, MutexGuard, PoisonError};

/// A program just written can't be started while another test's start still has it open.
fn one_at_a_time() -> MutexGuard<'static, ()> {
    static ONE: Mutex<()> = Mutex::new(());
    ONE.lock().unwrap_or_else(PoisonError::into_inner)
}

const SOURCES: [&str; 11] = [
    "crates/log_look/src/lib.rt",
    "crates/log_look/specs/Lib.antt",
    "crates/log_look/proofs/Lib.antt",
    "crates.txt",
    "rust/Cargo.toml",
    "rust/Cargo.lock",
    "rust/mellansko/Cargo.toml",
    "rust/mellansko/build.rs",
    "rust/mellansko/src/lib.rs",
    "rust/tool/Cargo.toml",
    "rust/tool/src/main.rs",
];

/// Where cargo puts the tool, whatever its settings, if told for which machine it is.
const TOOL: &str = "rust/target/x86_64-unknown-linux-gnu/release/mellansko";

/// The script in a folder of its own, an hour old like the sources, and a PATH without cargo.
struct Place {
    root: PathBuf,
    bin: PathBuf,
}

impl Place {
    fn new(folder: &Folder) -> Option<Place> {
        let root = folder.join("the place");
        for source in SOURCES {
            let source = root.join(source);
            fs::create_dir_all(source.parent().expect("a folder")).expect("a folder");
            fs::write(source, "").expect("a source");
        }
        set_ages(&root, 60);
        let script = Path::new(env!("CARGO_MANIFEST_DIR")).join("../../mellansko");
        fs::copy(script, root.join("mellansko")).expect("the script");
        let needed = ["sh", "dirname", "readlink", "find", "touch", "mkdir", "cp"];
        let bin = programs(folder, &needed)?;
        Some(Place { root, bin })
    }

    /// A tool that tells its words.
    fn add_tool(&self) {
        let tool = self.root.join(TOOL);
        fs::create_dir_all(tool.parent().expect("a folder")).expect("a folder");
        program(&tool, "printf '<%s>' \"$@\"; exit 1");
        set_age(&tool, 30);
    }

    /// A cargo that notes its words, and then does this.
    fn add_cargo(&self, then: &str) {
        let calls = self.root.join("calls");
        let note = format!("echo \"$*\" >>'{}'; echo chatter\n{then}", calls.display());
        program(&self.bin.join("cargo"), &note);
    }

    /// How often cargo was called, from the last time on that it was asked.
    fn calls(&self) -> Vec<String> {
        let calls = self.root.join("calls");
        let text = fs::read_to_string(&calls).unwrap_or_default();
        let _ = fs::remove_file(&calls);
        text.lines().map(String::from).collect()
    }

    fn run(&self, program: &Path, words: &[&str]) -> Ran {
        let mut command = Command::new(program);
        command.args(words).current_dir("/").stdin(Stdio::null());
        // Nor a ready archive, which would be taken without the toolchain.
        command.env_remove("MELLANSKO_STATICLIB");
        ran(command.env("PATH", &self.bin))
    }

    fn script(&self) -> PathBuf {
        self.root.join("mellansko")
    }
}

#[test]
fn words_and_status_go_through_from_any_folder_and_by_any_link() {
    let _guard = one_at_a_time();
    let folder = Folder::new("script-words");
    let Some(place) = Place::new(&folder) else {
        return;
    };
    place.add_tool();
    symlink(place.script(), folder.join("far")).expect("a link");
    symlink("far", folder.join("link to far")).expect("a link");
    symlink("../the place/mellansko", place.bin.join("mellansko")).expect("a link");
    let by_path = Path::new("mellansko");
    for script in [
        &place.script(),
        &folder.join("far"),
        &folder.join("link to far"),
        by_path,
    ] {
        let ran = place.run(script, &["cat", "two words", "", "*", "-n", "$x"]);
        assert_eq!((ran.status, ran.err.as_str()), (Some(1), ""));
        assert_eq!(ran.text(), "<cat><two words><><*><-n><$x>");
    }
}

#[test]
fn without_a_build_and_cargo_it_says_what_to_install() {
    let _guard = one_at_a_time();
    let folder = Folder::new("script-none");
    let Some(place) = Place::new(&folder) else {
        return;
    };
    place
        .run(&place.script(), &["--version"])
        .failed(2, &["cargo", "PATH", "Rust"]);
    // An old build is not taken for a new one.
    place.add_tool();
    set_age(&place.root.join(SOURCES[0]), 10);
    place
        .run(&place.script(), &["--version"])
        .failed(2, &["cargo", "PATH"]);
}

#[test]
fn it_builds_if_there_is_no_build_or_a_source_is_newer_and_only_then() {
    let _guard = one_at_a_time();
    let folder = Folder::new("script-newer");
    let Some(place) = Place::new(&folder) else {
        return;
    };
    // What cargo leaves as old as it was is not built again each time.
    let tool = place.root.join(TOOL);
    place.add_cargo("");
    place.add_tool();
    let runs = || {
        let ran = place.run(&place.script(), &["x"]);
        assert_eq!((ran.status, ran.text()), (Some(1), "<x>"), "{}", ran.err);
        place.calls()
    };
    assert_eq!(runs(), [""; 0]);
    for source in SOURCES {
        set_age(&tool, 30);
        set_age(&place.root.join(source), 10);
        let calls = runs();
        assert_eq!(calls.len(), 1, "{source}");
        for word in [
            "build",
            "--release",
            "--offline",
            "--locked",
            "--target x86_64-unknown-linux-gnu",
            "mellansko-tool",
        ] {
            assert!(calls[0].contains(word), "{}", calls[0]);
        }
        assert_eq!(runs(), [""; 0], "{source}");
        set_age(&place.root.join(source), 60);
    }
    // What rt writes beside a crate's sources is none.
    let out = place.root.join("crates/log_look/out");
    fs::create_dir(&out).expect("a folder");
    fs::write(out.join("kept"), "").expect("a file");
    assert_eq!(runs(), [""; 0]);
    fs::rename(&tool, place.root.join("built")).expect("the tool");
    let (from, to) = (place.root.join("built"), tool.display());
    place.add_cargo(&format!("cp '{}' '{to}'", from.display()));
    assert_eq!(runs().len(), 1);
    assert_eq!(runs().len(), 0);
}

#[test]
fn a_build_that_fails_starts_nothing() {
    let _guard = one_at_a_time();
    let folder = Folder::new("script-fails");
    let Some(place) = Place::new(&folder) else {
        return;
    };
    place.add_tool();
    set_age(&place.root.join(SOURCES[0]), 10);
    place.add_cargo("echo why >&2; exit 101");
    let ran = place.run(&place.script(), &["x"]);
    assert_eq!((ran.status, ran.text()), (Some(2), ""));
    for said in [
        "building",
        "\nwhy\n",
        "mellansko: the tool could not be built",
    ] {
        assert!(ran.err.contains(said), "{}", ran.err);
    }
    // Nor does it pass for done the next time.
    assert_eq!(place.run(&place.script(), &["x"]).status, Some(2));
    assert_eq!(place.calls().len(), 2);
    // Nor one that leaves no tool.
    fs::remove_file(place.root.join(TOOL)).expect("the tool");
    place.add_cargo("");
    assert_eq!(place.run(&place.script(), &["x"]).status, Some(2));
    assert!(!place.root.join(TOOL).exists());
}

fn copy_all(from: &Path, to: &Path) {
    fs::create_dir_all(to).expect("a folder");
    for entry in fs::read_dir(from).expect("a folder") {
        let entry = entry.expect("an entry");
        let name = entry.file_name();
        let to = to.join(&name);
        match entry.file_type().expect("its type").is_dir() {
            true if name == "out" || name == "target" => {}
            true => copy_all(&entry.path(), &to),
            false => drop(fs::copy(entry.path(), to).expect("a file")),
        }
    }
}

/// The archive that the tool under test was linked with: the last that cargo copied.
fn archive() -> PathBuf {
    let built = Path::new(env!("CARGO_BIN_EXE_mellansko")).with_file_name("build");
    let folders = fs::read_dir(built).expect("cargo's folder");
    let archives = folders.map(|entry| entry.expect("an entry").path().join("out/libmellansko.a"));
    let written = |path: &PathBuf| fs::metadata(path).and_then(|file| file.modified()).ok();
    archives
        .filter(|path| path.is_file())
        .max_by_key(written)
        .expect("the archive")
}

/// From the sources alone, with the toolchain missing at first, and then one that has it all ready.
#[test]
fn without_rt_it_names_the_toolchain_and_with_it_the_tool_is_built() {
    let _guard = one_at_a_time();
    let folder = Folder::new("script-rt");
    let repository = Path::new(env!("CARGO_MANIFEST_DIR")).join("../..");
    let needed = [
        "cargo", "rustc", "cc", "ld", "as", "sh", "dirname", "readlink", "find", "touch", "mkdir",
        "cp",
    ];
    let Some(bin) = programs(&folder, &needed) else {
        return;
    };
    let root = folder.join("copy");
    for part in ["crates", "rust"] {
        copy_all(&repository.join(part), &root.join(part));
    }
    for file in ["mellansko", "crates.txt"] {
        fs::copy(repository.join(file), root.join(file)).expect("a file");
    }
    let place = Place { root, bin };
    let ran = place.run(&place.script(), &["--version"]);
    assert_eq!((ran.status, ran.text()), (Some(2), ""));
    for said in ["`rt`", "Rattle toolchain", "PATH", "could not be built"] {
        assert!(ran.err.contains(said), "{said}: {}", ran.err);
    }

    let made = place.root.join("crates/mellansko/out");
    let (calls, archive) = (place.root.join("calls"), archive());
    let (calls, from, to) = (calls.display(), archive.display(), made.display());
    let make = format!("echo \"$*\" >>'{calls}'\nmkdir -p '{to}'\ncp '{from}' '{to}'");
    program(&place.bin.join("rt"), &make);
    for round in 0..2 {
        let ran = place.run(&place.script(), &["--version"]);
        assert_eq!(ran.status, Some(0), "{}", ran.err);
        assert_eq!(ran.text(), run!("--version").text());
        assert_eq!(ran.err.is_empty(), round > 0, "{}", ran.err);
    }
    assert_eq!(place.calls(), ["lib --cpu x86-64"]);
}
