//! LevelDB's own log writer and reader, in the program that is made of interop/leveldb_journal.cc.

use std::fs;
use std::io::{self, Write};
use std::path::{Path, PathBuf};
use std::process::{self, Command, Output, Stdio};
use std::sync::OnceLock;

pub struct Leveldb {
    program: PathBuf,
}

/// The program, or nothing where LevelDB or the compiler is not installed: standard error then says
/// that the tests which want it were skipped.
pub fn leveldb() -> Option<&'static Leveldb> {
    static LEVELDB: OnceLock<Option<Leveldb>> = OnceLock::new();
    LEVELDB.get_or_init(made).as_ref()
}

fn made() -> Option<Leveldb> {
    if let Some(missing) = missing() {
        // Not by eprintln!, which the harness keeps to itself where a test passes.
        writeln!(io::stderr(), "leveldb: skipped, {missing}").expect("standard error");
        return None;
    }
    let source = Path::new(env!("CARGO_MANIFEST_DIR")).join("../../interop/leveldb_journal.cc");
    let program = made_here("leveldb_journal");
    let mut compiler = Command::new("g++");
    compiler.args(["-std=c++17", "-O2"]).arg(source);
    // The archive, since the shared library hides the two classes.
    compiler.arg("-l:libleveldb.a").arg("-o").arg(&program);
    let output = run(&mut compiler, b"").expect("g++, as before");
    let said = String::from_utf8_lossy(&output.stderr);
    assert!(
        output.status.success(),
        "interop/leveldb_journal.cc: {said}"
    );
    Some(Leveldb { program })
}

/// A program of this run, beside which another run may make its own.
fn made_here(name: &str) -> PathBuf {
    Path::new(env!("CARGO_TARGET_TMPDIR")).join(format!("{name}-{}", process::id()))
}

/// What is not installed, if anything.
fn missing() -> Option<&'static str> {
    // Fails where the header or the archive is not found, and for no other reason.
    let probe = b"#if !__has_include(<leveldb/env.h>)\n#error\n#endif\nint main() {}\n";
    let made = made_here("leveldb_probe");
    let mut compiler = Command::new("g++");
    compiler.args(["-std=c++17", "-x", "c++", "-", "-l:libleveldb.a", "-o"]);
    let probed = run(compiler.arg(&made), probe);
    let _ = fs::remove_file(made);
    match probed {
        Err(error) if error.kind() == io::ErrorKind::NotFound => Some("g++ is not installed"),
        Err(error) => panic!("g++ did not start: {error}"),
        Ok(output) if output.status.success() => None,
        Ok(_) => Some("LevelDB's library is not installed (Debian: libleveldb-dev)"),
    }
}

impl Leveldb {
    /// The log that LevelDB's writer makes of the records.
    pub fn write(&self, records: &[Vec<u8>]) -> Vec<u8> {
        let mut list = Vec::new();
        for record in records {
            list.extend((record.len() as u32).to_le_bytes());
            list.extend(record);
        }
        let output = self.run("write", &list);
        assert!(output.status.success(), "write: {output:?}");
        output.stdout
    }

    /// The records that LevelDB's reader finds in a log, or what it says of the bytes it dropped.
    pub fn read(&self, log: &[u8]) -> Result<Vec<Vec<u8>>, String> {
        let output = self.run("read", log);
        let said = String::from_utf8_lossy(&output.stderr).into_owned();
        match output.status.code() {
            Some(0) if said.is_empty() => {}
            Some(1) => return Err(said),
            _ => panic!("read: {}, {said}", output.status),
        }
        let mut records = Vec::new();
        let mut rest = &output.stdout[..];
        while let Some((length, after)) = rest.split_first_chunk() {
            let (record, after) = after.split_at(u32::from_le_bytes(*length) as usize);
            records.push(record.to_vec());
            rest = after;
        }
        assert!(rest.is_empty(), "a list that ends inside a length");
        Ok(records)
    }

    fn run(&self, mode: &str, input: &[u8]) -> Output {
        run(Command::new(&self.program).arg(mode), input).expect("a program that was just made")
    }
}

/// Runs a program that reads all of its input before it writes anything.
fn run(command: &mut Command, input: &[u8]) -> io::Result<Output> {
    command.stdin(Stdio::piped());
    command.stdout(Stdio::piped()).stderr(Stdio::piped());
    let mut program = command.spawn()?;
    // A program that ends before it has read all says why on standard error, and by its status.
    let _ = program.stdin.take().expect("a pipe").write_all(input);
    program.wait_with_output()
}
