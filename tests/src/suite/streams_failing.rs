//! The programs `compile` and `convert` and streams that are late, that break, are full or that nobody reads: what each
//! writes, what it says on standard error, and how it ends. It writes no image before its input has ended.

use super::converts::OLD;
use super::streams_convert::NEW;
use super::watched::{ended, send, start, told, LATE, SIGPIPE};
use crate::compare::Outcome;
use crate::engine::Engine;
use crate::runner::{Cases, Count};
use crate::sample::{SAMPLE, SAMPLE_TEXT};
use std::fs::File;
use std::io::Read;
use std::os::fd::OwnedFd;
use std::os::unix::net::UnixStream;
use std::os::unix::process::ExitStatusExt;
use std::process::{Child, Command, Stdio};
use std::thread::sleep;

/// A program that writes nothing before its input has ended, an input, and what it makes of it.
struct Filter {
    name: &'static str,
    program: fn(&Engine) -> Command,
    input: &'static [u8],
    output: &'static [u8],
}

const COMPILE: Filter =
    Filter { name: "compile", program: Engine::compiler, input: SAMPLE_TEXT.as_bytes(), output: &SAMPLE };
const CONVERT: Filter = Filter { name: "convert", program: Engine::converter, input: &OLD, output: &NEW };

#[rustfmt::skip]
pub const TESTS: &[Cases] = &[
    Cases { name: "streams/compile-late-input", count: Count::Listed(3), run: |_, case| COMPILE.late_input(case) },
    Cases { name: "streams/compile-broken-input", count: Count::Listed(3), run: |_, case| COMPILE.broken_input(case) },
    Cases { name: "streams/compile-no-input", count: Count::Listed(1), run: |_, _| COMPILE.no_input() },
    Cases { name: "streams/compile-full-output", count: Count::Listed(1), run: |_, _| COMPILE.full_output() },
    Cases { name: "streams/compile-closed-output", count: Count::Listed(1), run: |_, _| COMPILE.closed_output() },
    Cases { name: "streams/convert-late-input", count: Count::Listed(3), run: |_, case| CONVERT.late_input(case) },
    Cases { name: "streams/convert-broken-input", count: Count::Listed(3), run: |_, case| CONVERT.broken_input(case) },
    Cases { name: "streams/convert-no-input", count: Count::Listed(1), run: |_, _| CONVERT.no_input() },
    Cases { name: "streams/convert-full-output", count: Count::Listed(1), run: |_, _| CONVERT.full_output() },
    Cases { name: "streams/convert-closed-output", count: Count::Listed(1), run: |_, _| CONVERT.closed_output() },
];

impl Filter {
    /// The bytes of the input that come at once, by case none, up to within a row or a record, or all; and the rest.
    fn in_two(&self, case: u64) -> (&[u8], &[u8]) {
        self.input.split_at([0, 40, self.input.len()][case as usize])
    }

    /// An input on which no read waits, and a host that stops within it.
    fn late_input(&self, case: u64) -> Outcome {
        let (mut ours, theirs) = UnixStream::pair().map_err(|error| error.to_string())?;
        theirs.set_nonblocking(true).map_err(|error| error.to_string())?;
        let child = self.start(OwnedFd::from(theirs), Stdio::piped())?;
        let (now, later) = self.in_two(case);
        send(&mut ours, now)?;
        sleep(LATE);
        send(&mut ours, later)?;
        drop(ours);
        ends(child, self.output, "")
    }

    /// An input that breaks: what came is not taken for the whole.
    fn broken_input(&self, case: u64) -> Outcome {
        let (mut ours, theirs) = UnixStream::pair().map_err(|error| error.to_string())?;
        // the peer of a stream that is closed with bytes unread is told so by an error
        send(&mut &theirs, &[0])?;
        let child = self.start(OwnedFd::from(theirs), Stdio::piped())?;
        send(&mut ours, self.in_two(case).0)?;
        sleep(LATE);
        drop(ours);
        self.gives_up(child, "standard input: Connection reset by peer")
    }

    /// A standard input that cannot be read at all: a folder.
    fn no_input(&self) -> Outcome {
        let folder = File::open("/").map_err(|error| error.to_string())?;
        self.gives_up(self.start(folder, Stdio::piped())?, "standard input: Is a directory")
    }

    /// A disk that is full.
    fn full_output(&self) -> Outcome {
        let full = File::options().write(true).open("/dev/full").map_err(|error| error.to_string())?;
        let mut child = self.start(Stdio::piped(), full)?;
        send(&mut child.stdin.take().expect("stdin is piped"), self.input)?;
        self.gives_up(child, "standard output: No space left on device")
    }

    /// Nobody reads the output: the program is ended by the signal, and says nothing. Today's toolchain has each program
    /// ignore that signal from its start: it then says why it stops.
    fn closed_output(&self) -> Outcome {
        let mut child = self.start(Stdio::piped(), Stdio::piped())?;
        drop(child.stdout.take());
        send(&mut child.stdin.take().expect("stdin is piped"), self.input)?;
        let status = ended(&mut child)?;
        match (told(&mut child).as_str(), status.signal()) {
            ("", Some(SIGPIPE)) => Ok(()),
            (said, None) if status.success() && said == self.says("standard output: Broken pipe") => Ok(()),
            (said, _) => Err(format!("{said:?} on standard error, {status}")),
        }
    }

    fn start(&self, input: impl Into<Stdio>, output: impl Into<Stdio>) -> Result<Child, String> {
        start((self.program)(&Engine::new()).stdin(input).stdout(output))
    }

    /// The program writes nothing, and says why.
    fn gives_up(&self, child: Child, why: &str) -> Outcome {
        ends(child, &[], &self.says(why))
    }

    /// The line that the program says why it stops in.
    fn says(&self, why: &str) -> String {
        format!("{}: {why}\n", self.name)
    }
}

/// Whether a program ends by itself, with this output and this on standard error.
fn ends(mut child: Child, output: &[u8], error: &str) -> Outcome {
    let status = ended(&mut child)?;
    let mut written = Vec::new();
    if let Some(mut stdout) = child.stdout.take() {
        stdout.read_to_end(&mut written).map_err(|error| error.to_string())?;
    }
    let said = told(&mut child);
    match written == output && said == error && status.success() {
        true => Ok(()),
        false => Err(format!("{} bytes of output, {said:?} on standard error, {status}", written.len())),
    }
}
