//! The tool while it runs: what it writes is seen line by line, as it comes.

use super::expect::certain;
use super::{gather, wait_for, wait_for_end, Ran, PATIENCE};
use std::ffi::c_int;
use std::io::{BufRead, BufReader, Write};
use std::os::unix::process::{CommandExt, ExitStatusExt};
use std::process::{Child, ChildStdin, Command, Stdio};
use std::sync::mpsc::{channel, Receiver, RecvTimeoutError};
use std::thread;
use std::time::Duration;

/// Long enough for the tool to write what it should not.
const QUIET: Duration = Duration::from_millis(60);

pub const SIGINT: c_int = 2;
pub const SIGTERM: c_int = 15;

extern "C" {
    fn kill(process: c_int, signal: c_int) -> c_int;
    fn signal(number: c_int, handler: usize) -> usize;
}

pub struct Live {
    child: Child,
    input: Option<ChildStdin>,
    lines: Receiver<String>,
    err: Receiver<Vec<u8>>,
    /// All lines that came so far.
    came: String,
}

impl Live {
    pub fn run(command: &mut Command) -> Live {
        command
            .stdin(Stdio::piped())
            .stdout(Stdio::piped())
            .stderr(Stdio::piped());
        // Where tests run in the background, a shell has them ignore it, and what they start too.
        const SIG_DFL: usize = 0;
        let obeying = || {
            // Safe: nothing is called when the signal comes.
            unsafe { signal(SIGINT, SIG_DFL) };
            Ok(())
        };
        // Safe: between fork and exec it makes that one call.
        unsafe { command.pre_exec(obeying) };
        let mut child = command.spawn().expect("the program starts");
        let mut out = BufReader::new(child.stdout.take().expect("its output"));
        let (send, lines) = channel();
        thread::spawn(move || loop {
            let mut line = String::new();
            let read = out.read_line(&mut line).expect("text");
            if read == 0 || send.send(line).is_err() {
                return;
            }
        });
        Live {
            input: child.stdin.take(),
            err: gather(child.stderr.take()),
            child,
            lines,
            came: String::new(),
        }
    }

    /// More on its standard input, which stays open.
    pub fn feed(&mut self, bytes: &[u8]) {
        let mut input = self.input.take().expect("an input that is open");
        let bytes = bytes.to_vec();
        let (send, written) = channel();
        thread::spawn(move || {
            input.write_all(&bytes).expect("it is read");
            send.send(input)
        });
        self.input = Some(written.recv_timeout(PATIENCE).expect("it is read"));
    }

    /// Waits until all of these lines have come, and no other.
    pub fn has_written(&mut self, lines: &str) {
        while self.came.len() < lines.len() {
            let line = self.lines.recv_timeout(PATIENCE);
            self.came += &line.expect("a line while it waits for more");
        }
        assert_eq!(self.came, lines);
    }

    /// Makes sure that no line comes.
    pub fn is_quiet(&mut self) {
        match self.lines.recv_timeout(QUIET) {
            Err(RecvTimeoutError::Timeout) => {}
            other => panic!("{other:?} after {:?}", self.came),
        }
    }

    /// Hands bytes on one after the other, and after each holds what has come to what is certain.
    pub fn in_drops(&mut self, log: &[u8], drop: impl FnMut(&mut Live, &[u8])) {
        self.in_drops_by(certain, log, drop);
    }

    /// The same, in lines of another kind.
    pub fn in_drops_by(
        &mut self,
        certain: fn(&[u8], usize) -> String,
        log: &[u8],
        mut drop: impl FnMut(&mut Live, &[u8]),
    ) {
        for came in 1..=log.len() {
            let before = certain(&log[..came - 1], 4_194_304);
            let after = certain(&log[..came], 4_194_304);
            if before != after {
                self.is_quiet();
            }
            drop(self, &log[came - 1..came]);
            self.has_written(&after);
        }
        self.is_quiet();
    }

    /// Closes its input, and waits for its end.
    pub fn end(mut self) -> Ran {
        drop(self.input.take());
        self.ended()
    }

    /// Waits for its end, with its input still open. All lines count, those that came before too.
    pub fn ended(&mut self) -> Ran {
        while let Ok(line) = self.lines.recv_timeout(PATIENCE) {
            self.came += &line;
        }
        let err = wait_for(&mut self.child, &self.err);
        let status = wait_for_end(&mut self.child).code();
        let err = String::from_utf8(err).expect("text on standard error");
        assert!(!err.contains("panicked"), "{err}");
        let out = self.came.clone().into();
        Ran { status, out, err }
    }

    /// Ends it by a signal, and gives what it said on standard error.
    pub fn killed(mut self, signal: c_int) -> String {
        // Safe: it is a process of this test, which has not been waited for.
        assert_eq!(unsafe { kill(self.child.id() as c_int, signal) }, 0);
        let err = wait_for(&mut self.child, &self.err);
        let status = wait_for_end(&mut self.child);
        assert_eq!(status.signal(), Some(signal), "{status:?}");
        assert!(
            self.lines.try_recv().is_err(),
            "no line that was not expected"
        );
        String::from_utf8(err).expect("text on standard error")
    }
}

/// The first line that a program writes, after which its output is closed.
pub fn first_line(child: &mut Child) -> String {
    let out = child.stdout.take().expect("its output");
    let (send, line) = channel();
    thread::spawn(move || {
        let mut line = String::new();
        BufReader::new(out).read_line(&mut line).expect("text");
        send.send(line)
    });
    line.recv_timeout(PATIENCE).unwrap_or_else(|_| {
        child.kill().expect("it can be ended");
        panic!("no line comes");
    })
}

/// Leaves no program behind where a test fails.
impl Drop for Live {
    fn drop(&mut self) {
        let _ = self.child.kill();
        let _ = self.child.wait();
    }
}
