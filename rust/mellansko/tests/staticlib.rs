//! The variable that names a ready archive. That of the repository, where the variable is not set,
//! is tested with the tool.

use std::fs;
use std::os::unix::fs::PermissionsExt;
use std::path::{Path, PathBuf};
use std::process::{self, Command, Output};

/// The build script in a folder that has no source of the archive, and an rt that only notes that
/// it was called.
struct Build(PathBuf);

impl Build {
    fn new() -> Build {
        let name = format!("staticlib-{}", process::id());
        let folder = Path::new(env!("CARGO_TARGET_TMPDIR")).join(name);
        for part in ["out", "bin", "rust/mellansko", "folder"] {
            fs::create_dir_all(folder.join(part)).expect("a folder");
        }
        let rt = folder.join("bin/rt");
        let text = format!(
            "#!/bin/sh\n: >'{}'\nexit 1\n",
            folder.join("called").display()
        );
        fs::write(&rt, text).expect("a program");
        fs::set_permissions(rt, fs::Permissions::from_mode(0o755)).expect("permissions");
        let script = Path::new(env!("CARGO_MANIFEST_DIR")).join("build.rs");
        let mut rustc = Command::new("rustc");
        rustc.args(["--edition", "2021", "-C", "debuginfo=0", "-o"]);
        rustc.arg(folder.join("build")).arg(script);
        rustc.env("CARGO_MANIFEST_DIR", folder.join("rust/mellansko"));
        let made = rustc.output().expect("the compiler that made this");
        assert!(made.status.success(), "{made:?}");
        Build(folder)
    }

    fn run(&self, variable: Option<&Path>) -> Output {
        let mut build = Command::new(self.0.join("build"));
        build.env("OUT_DIR", self.0.join("out"));
        build.env("PATH", self.0.join("bin"));
        match variable {
            Some(path) => build.env("MELLANSKO_STATICLIB", path),
            None => build.env_remove("MELLANSKO_STATICLIB"),
        };
        // A relative name would be found.
        build.current_dir(&self.0);
        build.output().expect("a program that was just made")
    }

    fn fails(&self, variable: &Path, says: &str) {
        let ran = self.run(Some(variable));
        let said = String::from_utf8_lossy(&ran.stderr);
        assert_eq!(ran.status.code(), Some(1), "{variable:?}: {said}");
        let named = format!("MELLANSKO_STATICLIB is \"{}\"", variable.display());
        assert!(said.contains(&named) && said.contains(says), "{said}");
        assert!(!said.contains("panicked"), "{said}");
    }

    fn rt_was_called(&self) -> bool {
        self.0.join("called").exists()
    }
}

impl Drop for Build {
    fn drop(&mut self) {
        // What is left does no harm: it is in cargo's folder.
        let _ = fs::remove_dir_all(&self.0);
    }
}

#[test]
fn a_ready_archive_is_linked_as_it_is_and_rt_is_not_called() {
    let build = Build::new();
    let archive = build.0.join("ready.a");
    fs::write(&archive, "ready").expect("an archive");
    let ran = build.run(Some(&archive));
    assert!(ran.status.success(), "{ran:?}");
    let copy = build.0.join("out/libmellansko.a");
    assert_eq!(fs::read(&copy).expect("a copy"), b"ready");
    let said = String::from_utf8(ran.stdout).expect("text");
    let mut lines: Vec<&str> = said.lines().collect();
    lines.sort();
    let (archive, copy, out) = (archive.display(), copy.display(), build.0.join("out"));
    let expected = [
        format!("cargo:rerun-if-changed={archive}"),
        "cargo:rerun-if-env-changed=MELLANSKO_STATICLIB".into(),
        format!("cargo:rustc-env=MELLANSKO_ARCHIVE={copy}"),
        "cargo:rustc-link-lib=static=mellansko".into(),
        format!("cargo:rustc-link-search=native={}", out.display()),
    ];
    assert_eq!(lines, expected);

    build.fails(&build.0.join("missing.a"), "can't be read");
    build.fails(&build.0.join("folder"), "no file");
    build.fails(Path::new("ready.a"), "absolute");
    build.fails(Path::new(""), "absolute");
    assert!(!build.rt_was_called());

    // Without the variable the sources are wanted, and then rt.
    assert!(!build.run(None).status.success());
    fs::create_dir_all(build.0.join("crates/mellansko")).expect("a folder");
    fs::write(build.0.join("crates.txt"), "").expect("a file");
    assert!(!build.run(None).status.success());
    assert!(build.rt_was_called());
}
