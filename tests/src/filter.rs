//! The programs `compile` and `convert`, run as processes: each reads all of its input and writes an image.

use crate::engine::write_in_pieces;
use std::process::{Command, Output, Stdio};
use std::thread;

/// What a program makes of an input that comes in pieces.
pub fn written(program: &mut Command, input: &[u8]) -> Result<Vec<u8>, String> {
    let started = program.stdin(Stdio::piped()).stdout(Stdio::piped()).stderr(Stdio::piped()).spawn();
    let mut child = started
        .unwrap_or_else(|error| panic!("cannot run {:?} (set COMPILE, CONVERT): {error}", program.get_program()));
    let mut stdin = child.stdin.take().expect("stdin is piped");
    let output = thread::scope(|scope| {
        scope.spawn(move || write_in_pieces(&mut stdin, input));
        child.wait_with_output().expect("the program can be waited for")
    });
    wrote(output)
}

/// The image, with nothing on standard error; or the line of a refusal, with nothing on standard output. Its status is
/// 0
/// either way, since a program in Rattle has no other. Panics at anything else.
pub fn wrote(output: Output) -> Result<Vec<u8>, String> {
    let Output { status, stdout, stderr } = output;
    let line = String::from_utf8(stderr).expect("the line is text");
    match (stdout.is_empty(), line.is_empty(), status.code()) {
        (false, true, Some(0)) => Ok(stdout),
        (true, false, Some(0)) => Err(line),
        _ => panic!("{} bytes of output, {line:?} on standard error, {status}", stdout.len()),
    }
}
