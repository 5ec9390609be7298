//! A program as a process that a test talks to: its lines as they come, its end, and what it says.

use crate::compare::Outcome;
use crate::engine::Engine;
use std::io::{BufRead, BufReader, Read, Write};
use std::process::{Child, Command, ExitStatus, Stdio};
use std::sync::mpsc::{self, Receiver};
use std::thread::{self, sleep};
use std::time::{Duration, Instant};

/// How long the program may take for an answer, or to end.
pub const PATIENCE: Duration = Duration::from_secs(20);

/// How long a stream has nothing to read, or is not read, so that many calls of the program find it so.
pub const LATE: Duration = Duration::from_millis(20);

/// The signal that ends a program that writes where nobody reads.
pub const SIGPIPE: i32 = 13;

/// A program whose standard output and standard error are piped to us.
pub struct Watched {
    child: Child,
    lines: Receiver<String>,
}

impl Watched {
    pub fn new(mut child: Child) -> Watched {
        let mut stdout = BufReader::new(child.stdout.take().expect("stdout is piped"));
        let (sender, lines) = mpsc::channel();
        thread::spawn(move || {
            let mut line = String::new();
            while stdout.read_line(&mut line).is_ok_and(|length| length > 0) {
                if sender.send(std::mem::take(&mut line)).is_err() {
                    return;
                }
            }
        });
        Watched { child, lines }
    }

    /// The program's next line is this one.
    pub fn says(&self, expected: &str) -> Outcome {
        let line = self.lines.recv_timeout(PATIENCE).map_err(|error| format!("no answer: {error}"))?;
        match line == expected {
            true => Ok(()),
            false => Err(format!("{line:?}, expected {expected:?}")),
        }
    }

    /// The program ends by itself, with this left to say on standard output and this on standard error.
    pub fn ends(mut self, output: &str, error: &str) -> Outcome {
        let status = ended(&mut self.child)?;
        let rest: String = self.lines.iter().collect();
        let said = told(&mut self.child);
        match rest == output && said == error && status.success() {
            true => Ok(()),
            false => {
                Err(format!("{rest:?}, expected {output:?}; on standard error {said:?}, expected {error:?}; {status}"))
            }
        }
    }
}

/// The program `permit` between two streams, which are then its alone.
pub fn permit(input: impl Into<Stdio>, output: impl Into<Stdio>) -> Result<Child, String> {
    start(Engine::new().program().stdin(input).stdout(output))
}

pub fn start(program: &mut Command) -> Result<Child, String> {
    program
        .stderr(Stdio::piped())
        .spawn()
        .map_err(|error| format!("cannot run {:?} (set PERMIT, COMPILE, CONVERT): {error}", program.get_program()))
}

pub fn send(to: &mut impl Write, bytes: &[u8]) -> Outcome {
    to.write_all(bytes).and_then(|()| to.flush()).map_err(|error| format!("the program does not read: {error}"))
}

/// Waits for the program's end, and stops it where that takes too long.
pub fn ended(child: &mut Child) -> Result<ExitStatus, String> {
    let started = Instant::now();
    loop {
        match child.try_wait() {
            Ok(Some(status)) => return Ok(status),
            Ok(None) if started.elapsed() < PATIENCE => sleep(Duration::from_millis(2)),
            other => {
                let _ = child.kill();
                return Err(format!("the program does not end: {other:?}"));
            }
        }
    }
}

/// What a program that has ended said on standard error.
pub fn told(child: &mut Child) -> String {
    let mut said = String::new();
    child.stderr.take().expect("stderr is piped").read_to_string(&mut said).expect("the output is text");
    said
}
