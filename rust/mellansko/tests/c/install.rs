//! The script that installs the archive, the header and the tool.

use crate::folder::{left_out, root, succeeded, Folder};
use std::os::unix::fs::{symlink, PermissionsExt};
use std::path::{Path, PathBuf};
use std::process::{Command, Output};
use std::{env, fs};

const FILES: [&str; 4] = [
    "bin/mellansko",
    "include/mellansko.h",
    "lib/libmellansko.a",
    "lib/pkgconfig/mellansko.pc",
];

/// How rt makes the archive.
const CALL: &str = "lib --cpu x86-64\n";

/// A copy of all that the script takes, an hour old, with an rt that has the archive ready.
struct Copy {
    folder: Folder,
    archive: PathBuf,
}

impl Copy {
    fn new(name: &str) -> Copy {
        let folder = Folder::new(name);
        let [copy, bin] = ["a copy", "bin"].map(|name| folder.0.join(name));
        for made in [&bin, &copy.join("rust")] {
            fs::create_dir_all(made).expect("a folder");
        }
        // By a program of its own: what is just written can't be started while this one forks.
        let cp = |from: &str, to: &Path| {
            succeeded(Command::new("cp").arg("-r").arg(root().join(from)).arg(to));
        };
        for part in ["crates.txt", "include", "install", "mellansko"] {
            cp(part, &copy);
        }
        // Without what the toolchain keeps beside the sources, which is far more than these.
        let sources = "find crates -name out -prune -o -type f -exec cp --parents -t \"$0\" {} +";
        let mut find = Command::new("sh");
        succeeded(find.args(["-c", sources]).arg(&copy).current_dir(root()));
        let all = [
            "Cargo.toml",
            "Cargo.lock",
            "bench",
            "mellansko",
            "reference",
        ];
        for part in all.into_iter().chain(["tool"]) {
            cp(&format!("rust/{part}"), &copy.join("rust"));
        }
        let old = "find \"$0\" -exec touch -d '1 hour ago' {} +";
        succeeded(Command::new("sh").args(["-c", old]).arg(&copy));
        let rt = root().join("rust/mellansko/tests/c/rt");
        symlink(rt.canonicalize().expect("the stand-in"), bin.join("rt")).expect("a link");
        let archive = PathBuf::from(env!("MELLANSKO_ARCHIVE"));
        Copy { folder, archive }
    }

    fn path(&self, name: &str) -> PathBuf {
        self.folder.0.join(name)
    }

    fn install(&self) -> Command {
        let mut path = self.path("bin").into_os_string();
        path.push(":");
        path.push(env::var_os("PATH").unwrap_or_default());
        let mut command = Command::new(self.path("a copy/install"));
        command.current_dir(&self.folder.0).env("PATH", path);
        command.env("RT_CALLS", self.path("calls"));
        command.env("RT_ARCHIVE", &self.archive);
        command.env_remove("DESTDIR").env_remove("MELLANSKO");
        command
    }

    /// How rt was called.
    fn calls(&self) -> String {
        fs::read_to_string(self.path("calls")).unwrap_or_default()
    }

    fn fails(&self, command: &mut Command, says: &str) {
        let run = command.output().expect("the script");
        assert_eq!((run.status.code(), &run.stdout[..]), (Some(2), &b""[..]));
        assert!(said(&run).contains(says), "{}", said(&run));
    }
}

#[test]
fn all_is_installed_and_can_be_used() {
    let copy = Copy::new("install");
    let prefix = copy.path("pre fix");
    let printed = succeeded(copy.install().arg("pre fix/"));
    assert_eq!(copy.calls(), CALL);
    let under = format!("installed under {}:", prefix.display());
    let mut lines = printed.lines();
    assert_eq!(lines.next(), Some(&under[..]));
    for file in FILES {
        assert_eq!(lines.next(), Some(&format!("  {file}")[..]));
        let mode = fs::metadata(prefix.join(file)).expect(file).permissions();
        let expected = if file == FILES[0] { 0o755 } else { 0o644 };
        assert_eq!(mode.mode() & 0o777, expected, "{file}");
    }
    assert_eq!(found(&prefix), FILES);
    same(&prefix.join(FILES[1]), &root().join("include/mellansko.h"));
    same(&prefix.join(FILES[2]), &copy.archive);

    let tool = prefix.join("bin/mellansko");
    let version = format!("mellansko {}\n", env!("CARGO_PKG_VERSION"));
    assert_eq!(succeeded(Command::new(&tool).arg("--version")), version);
    for (sample, status) in [("clean.log", 0), ("damaged.log", 1)] {
        let mut verify = Command::new(&tool);
        let verify = verify
            .arg("verify")
            .arg(root().join("samples").join(sample));
        let run = verify.output().expect("the tool");
        assert_eq!(run.status.code(), Some(status), "{sample}");
    }
    compiles(&copy, &prefix, printed.lines().last().expect("a line"));

    // What is up to date is not made again, and a package is put together elsewhere.
    let staged = copy.path("staged");
    let mut again = copy.install();
    let printed = succeeded(again.env("DESTDIR", &staged).arg("/srv/ours"));
    assert_eq!(copy.calls(), CALL);
    assert_eq!(found(&staged.join("srv/ours")), FILES);
    let command = "\n  cc -std=c99 program.c $(PKG_CONFIG_PATH=/srv/ours/lib/pkgconfig pkg-config \
                   --cflags --libs mellansko) -o program\n";
    assert!(printed.ends_with(command), "{printed}");
    replaces_all_or_nothing(&copy);
}

/// The line that the script shows compiles a program, and one that has nothing but the prefix.
fn compiles(copy: &Copy, prefix: &Path, line: &str) {
    let folder = &copy.folder.0;
    fs::copy(root().join("examples/journal.c"), folder.join("program.c")).expect("a source");
    let version = Command::new("pkg-config").arg("--version").output();
    if version.is_ok_and(|run| run.status.success()) {
        succeeded(Command::new("sh").args(["-c", line]).current_dir(folder));
        let mut version = Command::new("pkg-config");
        version.args(["--modversion", "mellansko"]);
        let version = succeeded(version.env("PKG_CONFIG_PATH", prefix.join("lib/pkgconfig")));
        assert_eq!(version.trim(), env!("CARGO_PKG_VERSION"));
    } else {
        left_out("pkg-config; its file is read here instead");
        succeeded(
            Command::new("cc")
                .args(["-std=c99", "program.c", "-o", "program"])
                .args(flags(prefix))
                .current_dir(folder),
        );
    }
    let printed = succeeded(&mut Command::new(folder.join("program")));
    assert!(printed.starts_with("appended up to 27\n"), "{printed}");
}

/// What the pkg-config file says, with its variables put in.
fn flags(prefix: &Path) -> Vec<String> {
    let file = prefix.join(FILES[3]);
    let text = fs::read_to_string(&file).expect("the file for pkg-config");
    let folder = file.parent().expect("a folder").display().to_string();
    let mut variables = vec![("pcfiledir".to_string(), folder)];
    let mut flags = Vec::new();
    for line in text.lines() {
        let put_in = |word: &str| {
            variables
                .iter()
                .fold(word.to_string(), |word, (name, value)| {
                    word.replace(&format!("${{{name}}}"), value)
                })
        };
        if let Some((name, value)) = line.split_once('=') {
            let value = put_in(value);
            variables.push((name.to_string(), value));
        } else if let Some((_, words)) = line
            .split_once("Cflags: ")
            .or_else(|| line.split_once("Libs: "))
        {
            flags.extend(words.split(' ').map(put_in));
        }
    }
    flags
}

/// Where there is an older version, it is replaced, or left as it was.
fn replaces_all_or_nothing(copy: &Copy) {
    let prefix = copy.path("old");
    let age = || {
        for file in FILES {
            let file = prefix.join(file);
            fs::create_dir_all(file.parent().expect("a folder")).expect("a folder");
            fs::write(file, "old").expect("a file");
        }
    };
    age();
    // A program that runs meanwhile has the old file: a new one gets its name.
    let kept = copy.path("kept");
    fs::hard_link(prefix.join(FILES[0]), &kept).expect("another name");
    succeeded(copy.install().arg(&prefix));
    assert_eq!(fs::read(kept).expect("the old file"), b"old");
    same(&prefix.join(FILES[2]), &copy.archive);
    assert_eq!(found(&prefix), FILES);
    for file in FILES {
        age();
        fs::remove_file(prefix.join(file)).expect("a file");
        fs::create_dir(prefix.join(file)).expect("a folder in its place");
        copy.fails(copy.install().arg(&prefix), "Nothing was installed");
        for other in FILES.into_iter().filter(|other| *other != file) {
            let text = fs::read(prefix.join(other)).expect("the old file");
            assert_eq!(text, b"old", "{other} with {file}");
        }
        assert_eq!(found(&prefix).len(), 3);
        fs::remove_dir(prefix.join(file)).expect("the folder");
    }
    // With one of them copied already.
    age();
    let header = copy.path("a copy/include/mellansko.h");
    fs::rename(&header, copy.path("away")).expect("the header");
    copy.fails(copy.install().arg(&prefix), "Nothing was installed");
    assert_eq!(found(&prefix), FILES);
    assert_eq!(fs::read(prefix.join(FILES[0])).expect("a file"), b"old");
    fs::rename(copy.path("away"), header).expect("the header");
    age();
    fs::remove_dir_all(prefix.join("include")).expect("the folder");
    fs::write(prefix.join("include"), "").expect("a file in its place");
    copy.fails(copy.install().arg(&prefix), "Nothing was installed");
    let others = ["bin/mellansko", "include", FILES[2], FILES[3]];
    assert_eq!(found(&prefix), others);
}

#[test]
fn it_says_what_it_takes_and_what_is_missing() {
    let mut copy = Copy::new("install-not");
    let help = succeeded(copy.install().arg("--help"));
    for file in FILES.into_iter().chain(["DESTDIR", "./install PREFIX"]) {
        assert!(help.contains(file), "{file}: {help}");
    }
    copy.fails(&mut copy.install(), "name the folder");
    copy.fails(copy.install().arg(""), "name the folder");
    copy.fails(copy.install().arg("--prefix=/x"), "no option --prefix=/x");
    copy.fails(copy.install().args(["one", "two"]), "name one folder");
    assert_eq!(copy.calls(), "");

    // An rt that fails, one that makes nothing, and none.
    for archive in [copy.path("none"), PathBuf::new()] {
        copy.archive = archive;
        copy.fails(copy.install().arg("pre"), "the archive could not be made");
    }
    assert_eq!(copy.calls(), CALL.repeat(2));
    let few = copy.path("few");
    fs::create_dir(&few).expect("a folder");
    let path = env::var_os("PATH").unwrap_or_default();
    for name in ["bash", "dirname", "readlink", "find"] {
        let mut places = env::split_paths(&path).map(|folder| folder.join(name));
        let program = places.find(|program| program.is_file()).expect(name);
        symlink(program, few.join(name)).expect("a link");
    }
    copy.fails(copy.install().arg("pre").env("PATH", few), "rt on the PATH");
    assert!(!copy.path("pre").exists());
}

/// All that is in a folder, and in those in it, in the order of the names.
fn found(folder: &Path) -> Vec<String> {
    let mut find = Command::new("find");
    let all = succeeded(
        find.arg(folder)
            .args(["!", "-type", "d", "-printf", "%P\\n"]),
    );
    let mut names: Vec<String> = all.lines().map(String::from).collect();
    names.sort();
    names
}

fn same(one: &Path, other: &Path) {
    let [one, other] = [one, other].map(|path| fs::read(path).expect("a file"));
    assert!(one == other);
}

fn said(run: &Output) -> String {
    String::from_utf8_lossy(&run.stderr).into_owned()
}
