//! Another program that does one thing at a time when it is asked to, so that it can take turns:
//! LevelDB's own log writer and reader (bench/leveldb.cc), or this program with another archive
//! (answers.rs).

use std::io::{BufRead, BufReader, Read, Write};
use std::process::{Child, ChildStdout, Command, Stdio};
use std::time::Duration;

pub struct Other {
    pub name: &'static str,
    program: Child,
    output: BufReader<ChildStdout>,
}

impl Other {
    pub fn start(name: &'static str, path: &str, arguments: &[&str]) -> Other {
        let program = Command::new(path)
            .args(arguments)
            .stdin(Stdio::piped())
            .stdout(Stdio::piped())
            .spawn();
        let mut program = program.unwrap_or_else(|error| panic!("{path} did not start: {error}"));
        let output = BufReader::new(program.stdout.take().expect("a pipe"));
        Other {
            name,
            program,
            output,
        }
    }

    /// How long it takes to write so many records, or to read the log of them.
    pub fn time(&mut self, command: &str, length: usize, count: usize) -> Duration {
        Duration::from_nanos(self.number(command, length, count))
    }

    /// The log of so many records.
    pub fn log(&mut self, length: usize, count: usize) -> Vec<u8> {
        let mut log = vec![0; self.number("log", length, count) as usize];
        self.output.read_exact(&mut log).expect("the log");
        log
    }

    fn number(&mut self, command: &str, length: usize, count: usize) -> u64 {
        let mut input = self.program.stdin.as_ref().expect("a pipe");
        writeln!(input, "{command} {length} {count}").expect("a program that listens");
        let mut line = String::new();
        self.output.read_line(&mut line).expect("an answer");
        line.trim().parse().expect("a number")
    }
}

/// The program ends when its input does, which waiting closes.
impl Drop for Other {
    fn drop(&mut self) {
        self.program.wait().expect("its end");
    }
}
