//! What the tests of the tool share.

// Each test program takes a part of it.
#![allow(dead_code, unused_macros)]

pub mod damage;
pub mod expect;
pub mod files;
pub mod live;
pub mod longest;
pub mod preload;
#[path = "../../../mellansko/tests/random/mod.rs"]
pub mod random;
pub mod report;
pub mod terminal;

use std::io::{Read, Write};
use std::process::{Child, Command, ExitStatus, Stdio};
use std::sync::mpsc::{channel, Receiver};
use std::thread;
use std::time::{Duration, Instant};

/// Longer than any run takes, a build among them, on a machine that has other things to do.
const PATIENCE: Duration = Duration::from_secs(100);

/// The tool under its plain name, with nothing on standard input and no wishes as to looks.
pub fn tool() -> Command {
    plain(Command::new(env!("CARGO_BIN_EXE_mellansko")))
}

/// The same, with no more than so many MiB of memory in all: its own program and the system's
/// libraries count, and so does what is not resident.
pub fn tool_within(mebibytes: usize) -> Command {
    let mut shell = Command::new("sh");
    let script = format!("ulimit -v {} && exec \"$0\" \"$@\"", mebibytes << 10);
    shell.args(["-c", &script, env!("CARGO_BIN_EXE_mellansko")]);
    plain(shell)
}

fn plain(mut command: Command) -> Command {
    command.env("MELLANSKO", "mellansko");
    command.env_remove("NO_COLOR").env_remove("COLUMNS");
    command.stdin(Stdio::null());
    command
}

/// Runs the tool with these words after its name.
macro_rules! run {
    ($($word:expr),* $(,)?) => {
        $crate::common::ran($crate::common::tool()$(.arg($word))*)
    };
}

/// Runs the tool with these bytes on standard input, and then these words after its name.
macro_rules! feed {
    ($input:expr; $($word:expr),* $(,)?) => {
        $crate::common::fed($crate::common::tool()$(.arg($word))*, $input)
    };
}

/// What a run left.
pub struct Ran {
    pub status: Option<i32>,
    pub out: Vec<u8>,
    pub err: String,
}

impl Ran {
    pub fn text(&self) -> &str {
        std::str::from_utf8(&self.out).expect("text on standard output")
    }

    /// The lines of standard output, each of which is ended.
    pub fn lines(&self) -> Vec<&str> {
        let text = self.text();
        assert!(text.is_empty() || text.ends_with('\n'), "{text:?}");
        text.lines().collect()
    }

    /// Done, and nothing to complain of.
    pub fn done(&self) -> &Ran {
        assert_eq!((self.status, self.err.as_str()), (Some(0), ""));
        self
    }

    /// Nothing on standard output, and a message that says all of these.
    pub fn failed(&self, status: i32, says: &[&str]) {
        assert_eq!(self.text(), "", "{}", self.err);
        self.complained(status, says);
    }

    /// A message of one line that says all of these.
    pub fn complained(&self, status: i32, says: &[&str]) {
        assert_eq!(self.status, Some(status), "{}", self.err);
        assert_eq!(self.err.lines().count(), 1, "{}", self.err);
        self.warned(says);
    }

    /// A message that says all of these.
    pub fn warned(&self, says: &[&str]) {
        assert!(self.err.starts_with("mellansko: "), "{}", self.err);
        for said in says {
            assert!(self.err.contains(said), "{said:?} is not in: {}", self.err);
        }
    }
}

pub fn ran(command: &mut Command) -> Ran {
    command.stdout(Stdio::piped()).stderr(Stdio::piped());
    finish(command.spawn().expect("the program starts"), Vec::new())
}

pub fn fed(command: &mut Command, input: &[u8]) -> Ran {
    command
        .stdin(Stdio::piped())
        .stdout(Stdio::piped())
        .stderr(Stdio::piped());
    let child = command.spawn().expect("the program starts");
    finish(child, input.to_vec())
}

/// Gives a running program its input and waits for its end, which is to be one of its own choice.
pub fn finish(mut child: Child, input: Vec<u8>) -> Ran {
    let stdin = child.stdin.take();
    let feeder = thread::spawn(move || {
        // A program that refuses at once need not read it all.
        stdin.map(|mut stdin| stdin.write_all(&input))
    });
    let (out, err) = (gather(child.stdout.take()), gather(child.stderr.take()));
    let (out, err) = (wait_for(&mut child, &out), wait_for(&mut child, &err));
    let status = wait_for_end(&mut child).code();
    let _ = feeder.join();
    let err = String::from_utf8(err).expect("text on standard error");
    assert!(matches!(status, Some(0..=2)), "{status:?}: {err}");
    assert!(!err.contains("panicked"), "{err}");
    Ran { status, out, err }
}

/// All that a running program writes, once it has closed that output.
fn wait_for(child: &mut Child, all: &Receiver<Vec<u8>>) -> Vec<u8> {
    all.recv_timeout(PATIENCE).unwrap_or_else(|_| {
        child.kill().expect("it can be ended");
        panic!("it hangs");
    })
}

/// Waits for the end of a program, which may have closed its outputs long before, or have none.
fn wait_for_end(child: &mut Child) -> ExitStatus {
    let deadline = Instant::now() + PATIENCE;
    while Instant::now() < deadline {
        if let Some(status) = child.try_wait().expect("it can be waited for") {
            return status;
        }
        thread::sleep(Duration::from_millis(1));
    }
    child.kill().expect("it can be ended");
    panic!("it hangs");
}

fn gather(from: Option<impl Read + Send + 'static>) -> Receiver<Vec<u8>> {
    let (send, receive) = channel();
    thread::spawn(move || {
        let mut all = Vec::new();
        if let Some(mut from) = from {
            from.read_to_end(&mut all).expect("it can be read");
        }
        let _ = send.send(all);
    });
    receive
}
