//! The program `permit` beside a host that waits for each answer, and beside streams that are late, broken, full or
//! closed: what it writes, what it says on standard error, and how it ends.

use super::watched::{ended, permit, send, start, told, Watched, LATE, PATIENCE, SIGPIPE};
use crate::compare::{Outcome, Pair};
use crate::engine::Engine;
use crate::runner::{Cases, Count};
use crate::sample::{QUERIES, SAMPLE};
use std::fs::File;
use std::io::{Read, Write};
use std::os::fd::OwnedFd;
use std::os::unix::net::UnixStream;
use std::os::unix::process::ExitStatusExt;
use std::process::{Command, ExitStatus, Stdio};
use std::thread::{self, sleep};
use std::time::{Duration, Instant};

/// How long a host stops in the middle of a query, so that the program's read ends there.
const PAUSE: Duration = Duration::from_millis(2);

pub const TESTS: &[Cases] = &[
    Cases { name: "program/waiting-host", count: Count::Listed(12), run: waiting_host },
    Cases { name: "streams/late-input", count: Count::Listed(13), run: late_input },
    Cases { name: "streams/late-end", count: Count::Listed(12), run: late_end },
    Cases { name: "streams/late-output", count: Count::Listed(1), run: late_output },
    Cases { name: "streams/broken-input", count: Count::Listed(13), run: broken_input },
    Cases { name: "streams/no-input", count: Count::Listed(1), run: no_input },
    Cases { name: "streams/full-output", count: Count::Listed(3), run: full_output },
    Cases { name: "streams/closed-output", count: Count::Listed(1), run: closed_output },
    Cases { name: "streams/closed-output-signal-ignored", count: Count::Listed(1), run: closed_output_signal_ignored },
];

/// Case n: a host that sends n bytes of a query, stops, sends the rest, and waits for the line before the next query.
fn waiting_host(_: &Pair, case: u64) -> Outcome {
    let mut child = permit(Stdio::piped(), Stdio::piped())?;
    let mut stdin = child.stdin.take().expect("stdin is piped");
    let child = Watched::new(child);
    send(&mut stdin, &SAMPLE)?;
    answers(&mut stdin, &child, case as usize, PAUSE)?;
    drop(stdin);
    child.ends("", "")
}

/// Case n: an input on which no read waits, where all is late: the image after 6 n of its bytes, and each query after
/// n.
fn late_input(_: &Pair, case: u64) -> Outcome {
    let (mut input, child) = with_late_input()?;
    sleep(LATE);
    in_two(&mut input, &SAMPLE, 6 * case as usize, LATE)?;
    answers(&mut input, &child, case as usize, LATE)?;
    drop(input);
    child.ends("", "")
}

/// Case n: such an input that ends late, after n bytes of a query.
fn late_end(_: &Pair, case: u64) -> Outcome {
    let (mut input, child) = with_late_input()?;
    send(&mut input, &SAMPLE)?;
    sleep(LATE);
    send(&mut input, &QUERIES[0].to_bytes()[..case as usize])?;
    sleep(LATE);
    drop(input);
    child.ends(if case == 0 { "" } else { "R 15 0\n" }, "")
}

/// An output on which no write waits, and that is read late: no line is lost.
fn late_output(_: &Pair, _: u64) -> Outcome {
    const MANY: usize = 100_000;
    let (mut ours, theirs) = pair()?;
    theirs.set_nonblocking(true).map_err(|error| error.to_string())?;
    let mut child = permit(Stdio::piped(), OwnedFd::from(theirs))?;
    let mut stdin = child.stdin.take().expect("stdin is piped");
    let queries = [&SAMPLE[..], &QUERIES[0].to_bytes().repeat(MANY)].concat();
    let writer = thread::spawn(move || stdin.write_all(&queries).is_ok());
    sleep(5 * LATE);
    let mut output = String::new();
    ours.read_to_string(&mut output).map_err(|error| error.to_string())?;
    let sent = writer.join().unwrap_or(false);
    let status = ended(&mut child)?;
    let said = told(&mut child);
    match sent && output == "P 0\n".repeat(MANY) && said.is_empty() && status.success() {
        true => Ok(()),
        false => Err(format!("{} bytes of output, {said:?} on standard error, {status}", output.len())),
    }
}

/// Case n: an input that breaks after two queries and n bytes of a third; with 12, in the middle of the image. Nothing
/// is written for what is left, since the input has not ended.
fn broken_input(_: &Pair, case: u64) -> Outcome {
    let (mut ours, theirs) = pair()?;
    // the peer of a stream that is closed with bytes unread is told so by an error
    send(&mut &theirs, &[0])?;
    let child = Watched::new(permit(OwnedFd::from(theirs), Stdio::piped())?);
    let queries = [QUERIES[0].to_bytes(), QUERIES[2].to_bytes(), QUERIES[3].to_bytes()].concat();
    let written = match case {
        12 => {
            send(&mut ours, &SAMPLE[..40])?;
            ""
        }
        left => {
            send(&mut ours, &[&SAMPLE[..], &queries[..24 + left as usize]].concat())?;
            "P 0\nN 1 0\n"
        }
    };
    sleep(LATE);
    drop(ours);
    child.ends(written, "permit: standard input: Connection reset by peer\n")
}

/// A standard input that cannot be read at all: a folder.
fn no_input(_: &Pair, _: u64) -> Outcome {
    let folder = File::open("/").map_err(|error| error.to_string())?;
    Watched::new(permit(folder, Stdio::piped())?).ends("", "permit: standard input: Is a directory\n")
}

/// A disk that is full, for the line of a query, of bytes that are left, of a refused image.
fn full_output(_: &Pair, case: u64) -> Outcome {
    let query = QUERIES[0].to_bytes();
    let input = match case {
        0 => [&SAMPLE[..], &query].concat(),
        1 => [&SAMPLE[..], &query[..11]].concat(),
        _ => SAMPLE[..79].to_vec(),
    };
    let full = File::options().write(true).open("/dev/full").map_err(|error| error.to_string())?;
    let mut child = permit(Stdio::piped(), full)?;
    send(&mut child.stdin.take().expect("stdin is piped"), &input)?;
    let status = ended(&mut child)?;
    match (told(&mut child).as_str(), status.success()) {
        ("permit: standard output: No space left on device\n", true) => Ok(()),
        (said, _) => Err(format!("{said:?} on standard error, {status}")),
    }
}

/// A host that closes the program's output and goes on sending: the program is ended by the signal, and says nothing. Today's
/// toolchain has each program ignore that signal from its start: it then ends as where the host has it ignored.
fn closed_output(_: &Pair, _: u64) -> Outcome {
    let (said, status) = not_listening(&mut Engine::new().program())?;
    match (said.as_str(), status.signal()) {
        ("", Some(SIGPIPE)) => Ok(()),
        ("permit: standard output: Broken pipe\n", None) if status.success() => Ok(()),
        (said, _) => Err(format!("{said:?} on standard error, {status}")),
    }
}

/// The same where the host has that signal ignored: the program says why it stops.
fn closed_output_signal_ignored(_: &Pair, _: u64) -> Outcome {
    let mut shell = Command::new("sh");
    shell.args(["-c", "trap '' PIPE; exec \"$0\""]).arg(Engine::new().program().get_program());
    let (said, status) = not_listening(&mut shell)?;
    match said == "permit: standard output: Broken pipe\n" && status.success() {
        true => Ok(()),
        false => Err(format!("{said:?} on standard error, {status}")),
    }
}

/// Sends queries to a program whose output is closed, until it reads no more.
fn not_listening(program: &mut Command) -> Result<(String, ExitStatus), String> {
    let mut child = start(program.stdin(Stdio::piped()).stdout(Stdio::piped()))?;
    drop(child.stdout.take());
    let mut stdin = child.stdin.take().expect("stdin is piped");
    send(&mut stdin, &SAMPLE)?;
    let queries = QUERIES[0].to_bytes().repeat(1000);
    let started = Instant::now();
    while stdin.write_all(&queries).is_ok() {
        if started.elapsed() > PATIENCE {
            let _ = child.kill();
            return Err("the program reads on, though nobody reads its answers".to_string());
        }
    }
    let status = ended(&mut child)?;
    Ok((told(&mut child), status))
}

/// The program with an input on which no read waits, and our end of it.
fn with_late_input() -> Result<(UnixStream, Watched), String> {
    let (ours, theirs) = pair()?;
    theirs.set_nonblocking(true).map_err(|error| error.to_string())?;
    Ok((ours, Watched::new(permit(OwnedFd::from(theirs), Stdio::piped())?)))
}

fn pair() -> Result<(UnixStream, UnixStream), String> {
    UnixStream::pair().map_err(|error| error.to_string())
}

/// Sends the document's three queries, each in two, and reads each one's line before the next.
fn answers(to: &mut impl Write, child: &Watched, first: usize, pause: Duration) -> Outcome {
    for (query, expected) in [(QUERIES[0], "P 0\n"), (QUERIES[2], "N 1 0\n"), (QUERIES[3], "P 2\n")] {
        in_two(to, &query.to_bytes(), first, pause)?;
        child.says(expected)?;
    }
    Ok(())
}

/// Sends the first bytes, waits, and sends the rest.
fn in_two(to: &mut impl Write, bytes: &[u8], first: usize, pause: Duration) -> Outcome {
    send(to, &bytes[..first])?;
    sleep(pause);
    send(to, &bytes[first..])
}
