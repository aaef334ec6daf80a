//! The build script of the Rust crate, which has `rt` make the archive of the proved calls.

mod common;

use common::files::{program, programs, set_age, set_ages, Folder};
use common::{ran, Ran};
use std::fs;
use std::path::{Path, PathBuf};
use std::process::{Command, Stdio};

/// Sources of the archive.
const FILES: [&str; 4] = [
    "crates.txt",
    "crates/log_look/src/lib.rt",
    "crates/log_look/specs/Lib.antt",
    "crates/log_look/proofs/look/Answers.antt",
];

/// The build script, made for a folder in which all sources are an hour old.
struct Build {
    root: PathBuf,
    bin: PathBuf,
}

impl Build {
    fn new(folder: &Folder) -> Option<Build> {
        let root = folder.join("place");
        let package = root.join("rust/mellansko");
        let folders = [
            "out",
            "crates/mellansko/out",
            "crates/log_look/src",
            "crates/log_look/specs",
            "crates/log_look/proofs/look",
            "crates/log_look/out",
        ];
        for folder in folders.map(|folder| root.join(folder)) {
            fs::create_dir_all(folder).expect("a folder");
        }
        fs::create_dir_all(&package).expect("a folder");
        for source in FILES {
            fs::write(root.join(source), "").expect("a source");
        }
        set_ages(&root, 60);
        let script = Path::new(env!("CARGO_MANIFEST_DIR")).join("../mellansko/build.rs");
        let mut rustc = Command::new("rustc");
        rustc.args(["--edition", "2021", "-C", "debuginfo=0", "-o"]);
        rustc.arg(root.join("build")).arg(script);
        rustc
            .env("CARGO_MANIFEST_DIR", &package)
            .stdin(Stdio::null());
        assert_eq!(ran(&mut rustc).status, Some(0));
        let bin = programs(folder, &["sh", "cp", "mkdir"])?;
        Some(Build { root, bin })
    }

    fn archive(&self) -> PathBuf {
        self.root.join("crates/mellansko/out/libmellansko.a")
    }

    /// An archive that was written so many minutes ago.
    fn add_archive(&self, minutes: u64) {
        fs::write(self.archive(), "ready").expect("the archive");
        set_age(&self.archive(), minutes);
    }

    /// An rt that notes where it is and its words, and then does this.
    fn add_rt(&self, then: &str) {
        let calls = self.root.join("calls");
        let note = format!("echo \"$PWD: $*\" >>'{}'\n{then}", calls.display());
        program(&self.bin.join("rt"), &note);
    }

    fn calls(&self) -> String {
        let calls = self.root.join("calls");
        let text = fs::read_to_string(&calls).unwrap_or_default();
        let _ = fs::remove_file(&calls);
        text
    }

    fn run(&self) -> Ran {
        let mut command = Command::new(self.root.join("build"));
        command
            .env_remove("MELLANSKO_STATICLIB")
            .env("OUT_DIR", self.root.join("out"))
            .env("PATH", &self.bin);
        ran(command.stdin(Stdio::null()))
    }

    /// Holds a run to whether rt is called, and to the bytes that are linked.
    fn check(&self, called: bool, linked: &str) {
        let ran = self.run();
        assert_eq!((ran.status, ran.err.as_str()), (Some(0), ""));
        let root = self.root.canonicalize().expect("the folder");
        let folder = root.join("crates/mellansko");
        let call = format!("{}: lib --cpu x86-64\n", folder.display());
        assert_eq!(self.calls(), if called { call } else { String::new() });
        let copy = fs::read_to_string(self.root.join("out/libmellansko.a"));
        assert_eq!(copy.expect("a copy"), linked);
        assert!(ran
            .text()
            .contains("cargo:rustc-link-lib=static=mellansko\n"));
        let parts = ["src", "specs", "proofs"].map(|part| format!("crates/log_look/{part}"));
        let watched = ran.text().matches("cargo:rerun-if-changed").count();
        assert_eq!(watched, 1 + parts.len(), "{}", ran.text());
        for source in parts.iter().map(String::as_str).chain(["crates.txt"]) {
            let watched = format!("cargo:rerun-if-changed={}\n", root.join(source).display());
            assert!(ran.text().contains(&watched), "{}", ran.text());
        }
    }

    fn fails(&self, says: &[&str]) {
        let ran = self.run();
        assert_eq!(ran.status, Some(1), "{}", ran.err);
        for said in says {
            assert!(ran.err.contains(said), "{said:?} is not in: {}", ran.err);
        }
    }
}

/// One test, since a program just written can't be started while another start has it open.
#[test]
fn rt_is_called_if_the_archive_is_missing_or_older_than_a_source_and_only_then() {
    let folder = Folder::new("archive");
    let Some(build) = Build::new(&folder) else {
        return;
    };
    build.fails(&["`rt`", "Rattle toolchain", "PATH"]);
    build.add_rt(&format!("echo -n made >'{}'", build.archive().display()));
    build.check(true, "made");
    build.add_archive(30);
    build.check(false, "ready");

    let folders = ["crates/log_look/src", "crates/log_look/proofs", "crates"];
    for source in FILES.into_iter().chain(folders) {
        let source = build.root.join(source);
        build.add_archive(30);
        set_age(&source, 10);
        build.check(true, "made");
        build.check(false, "made");
        set_age(&source, 60);
    }
    // What rt writes beside the sources is none.
    build.add_archive(30);
    let kept = build.root.join("crates/log_look/out/kept");
    fs::write(&kept, "").expect("a file");
    build.check(false, "ready");
    // Of the same age, it may have been written before the source.
    let source = build.root.join("crates.txt");
    set_age(&source, 50);
    let time = fs::metadata(source).and_then(|file| file.modified());
    build.add_archive(30);
    let archive = fs::File::open(build.archive()).expect("the archive");
    archive
        .set_modified(time.expect("its time"))
        .expect("a time");
    build.check(true, "made");
    check_failures(&build);
}

fn check_failures(build: &Build) {
    build.add_archive(90);
    build.add_rt("echo the proof; echo has a gap >&2; exit 1");
    build.fails(&["`rt lib --cpu x86-64` failed", "the proof", "has a gap"]);
    // An rt that makes nothing is no success.
    fs::remove_file(build.archive()).expect("the archive");
    build.add_rt("exit 0");
    build.fails(&["libmellansko.a"]);
    fs::remove_file(build.root.join("crates.txt")).expect("a source");
    build.add_archive(30);
    build.fails(&["crates.txt"]);
}
