//! Programs in C and C++, compiled and run.

use std::ffi::OsStr;
use std::io::{self, Write as _};
use std::path::{Path, PathBuf};
use std::process::{self, Command, Output};
use std::{fs, thread};

/// A compiler and its options, as one types them.
pub type Way = &'static str;

pub const C: Way = "cc -std=c99 -Wall -Wextra -pedantic -Werror";
pub const CLANG: Way = "clang -std=c99 -Wall -Wextra -pedantic -Werror";
pub const SANITIZED: Way = "cc -std=c99 -fsanitize=address,undefined -fno-sanitize-recover=all";
pub const CPP: Way = "c++ -x c++ -Wall -Wextra -pedantic -Werror";
pub const CLANG_CPP: Way = "clang++ -x c++ -Wall -Wextra -pedantic -Werror";
pub const OLD_CPP: Way = "c++ -x c++ -std=c++98 -Wall -Wextra -pedantic -Werror";
/// As if by a compiler that is not GNU's, of which the header then knows only the language.
pub const PLAIN_CPP: Way = "c++ -x c++ -std=c++17 -U__GNUC__ -Wall -Werror";

/// A folder for one test's files, removed with it if it succeeds.
pub struct Folder(pub PathBuf);

impl Folder {
    pub fn new(name: &str) -> Folder {
        let name = format!("c-{name}-{}", process::id());
        let folder = Path::new(env!("CARGO_TARGET_TMPDIR")).join(name);
        fs::create_dir_all(&folder).expect("a temporary folder");
        Folder(folder)
    }

    pub fn file(&self, name: &str, bytes: impl AsRef<[u8]>) -> PathBuf {
        let path = self.0.join(name);
        fs::write(&path, bytes).expect("a file in the temporary folder");
        path
    }

    /// Those of the ways that work here.
    pub fn there(&self, ways: &[Way]) -> Vec<Way> {
        let ways = ways.iter().copied();
        ways.filter(|way| self.works(way)).collect()
    }

    /// Whether a program that does nothing, not even call us, can be made and run.
    fn works(&self, way: Way) -> bool {
        let nothing = self.file("nothing.c", "int main(void) { return 0; }\n");
        let program = self.0.join("nothing");
        let made = compiler(way).arg(nothing).arg("-o").arg(&program).output();
        let works = matches!(made, Ok(made) if made.status.success())
            && matches!(Command::new(program).output(), Ok(run) if run.status.success());
        if !works {
            left_out(way);
        }
        works
    }

    /// The program made of a source that calls us.
    pub fn program(&self, way: Way, source: &Path) -> PathBuf {
        let program = self.0.join(source.file_stem().expect("a name"));
        let mut compiler = compiler(way);
        compiler.arg(source).args(["-x", "none"]);
        compiler
            .args([env!("MELLANSKO_ARCHIVE"), "-o"])
            .arg(&program);
        succeeded(&mut compiler);
        program
    }

    /// What a program that calls us prints.
    pub fn run(&self, way: Way, source: &Path) -> String {
        succeeded(&mut Command::new(self.program(way, source)))
    }

    /// What the compiler says of a source.
    pub fn compiled(&self, way: Way, text: &str) -> Output {
        let source = self.file("compiled.c", text);
        let mut compiler = compiler(way);
        compiler
            .arg("-c")
            .arg(source)
            .arg("-o")
            .arg(self.0.join("compiled.o"));
        compiler.output().expect("a compiler that was there")
    }
}

impl Drop for Folder {
    fn drop(&mut self) {
        if !thread::panicking() {
            // What remains does no harm: it is in cargo's folder.
            let _ = fs::remove_dir_all(&self.0);
        }
    }
}

fn compiler(way: Way) -> Command {
    let mut words = way.split(' ');
    let mut command = Command::new(words.next().expect("a compiler"));
    command.args(words).arg("-I").arg(root().join("include"));
    command
}

/// Past the test harness, which keeps what a test prints to itself.
pub fn left_out(what: &str) {
    let said = writeln!(
        io::stderr(),
        "tests/c.rs: skipped, since this does not work here: {what}"
    );
    said.expect("standard error");
}

/// What it printed.
pub fn succeeded(command: &mut Command) -> String {
    let run = command.output().expect("a program that was there");
    let [printed, said] = [&run.stdout, &run.stderr].map(|bytes| String::from_utf8_lossy(bytes));
    assert!(
        run.status.success(),
        "{command:?}: {}\n{printed}{said}",
        run.status
    );
    printed.into_owned()
}

/// A file of the repository.
pub fn text(name: impl AsRef<OsStr>) -> String {
    fs::read_to_string(root().join(Path::new(&name))).expect("a file of the repository")
}

pub fn root() -> PathBuf {
    Path::new(env!("CARGO_MANIFEST_DIR")).join("../..")
}
