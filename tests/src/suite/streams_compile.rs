//! The program `compile` and inputs that come in pieces or from a file, and that are long: what it writes, what it says
//! on standard error, and how it ends.

use super::watched::start;
use crate::compare::{equal, typed, Outcome, Pair};
use crate::engine::Engine;
use crate::filter::wrote;
use crate::runner::{Cases, Count};
use crate::sample::{SAMPLE, SAMPLE_TEXT};
use std::fs::{remove_file, write, File};
use std::io::Write;
use std::process::{Command, Stdio};
use std::thread::{scope, sleep};
use std::time::Duration;
use std::{env, process};

/// How long a host stops within a text, so that the program's read ends there.
const PAUSE: Duration = Duration::from_millis(2);

const LENGTH: u64 = SAMPLE_TEXT.len() as u64;

/// Sizes that a program may read at once, and a row that starts up to its length before such a boundary.
const BLOCKS: [usize; 9] = [512, 1024, 2048, 4096, 8192, 16_384, 32_768, 65_536, 131_072];
const ROW: &str = "allow 10 30 5 3 on\n";
const STARTS: u64 = ROW.len() as u64 + 1;

/// An image of that rule and a group of 7.
#[rustfmt::skip]
const RULE_AND_GROUP: &[u8] =
    &[1, 0, 24, 0, 1, 0, 1, 0, 0, 4, 1, 0, 7, 11, 2, 0, 10, 0, 30, 0, 5, 0, 3, 1];

pub const TESTS: &[Cases] = &[
    Cases { name: "streams/compile-pieces", count: Count::Listed(LENGTH + 1), run: pieces },
    Cases { name: "streams/compile-blocks", count: Count::Listed(BLOCKS.len() as u64 * STARTS), run: blocks },
    Cases { name: "streams/compile-long-rows", count: Count::Listed(LONG_ROWS.len() as u64), run: long_rows },
    Cases { name: "streams/compile-empty-rows", count: Count::Listed(2), run: empty_rows },
];

/// Case n: the first n bytes, a pause, and the rest; and the same with a row behind that is outside the form.
fn pieces(_: &Pair, case: u64) -> Outcome {
    for (behind, expected) in [("", Ok(SAMPLE.to_vec())), ("GROUP", Err("R 18 123 8\n".to_string()))] {
        let text = [SAMPLE_TEXT, behind].concat();
        let (first, rest) = text.as_bytes().split_at(case as usize);
        equal("compile", from_pieces(Engine::new().compiler(), &[first, rest])?, expected, || {
            format!("{} in two", typed(text.as_bytes()))
        })?;
    }
    Ok(())
}

/// Empty rows up to a row that lies across a boundary of the program's reads, from a file.
fn blocks(_: &Pair, case: u64) -> Outcome {
    let place = BLOCKS[(case / STARTS) as usize] - (case % STARTS) as usize;
    let text = "\n".repeat(place) + ROW + "group 7";
    equal("compile", from_file(Engine::new().compiler(), case, text.as_bytes())?, Ok(RULE_AND_GROUP.to_vec()), || {
        typed(text.as_bytes())
    })?;
    let text = "\n".repeat(place) + &ROW.replace("on", "oN") + "group 7";
    let line = format!("R 18 {place} {}\n", place + 1);
    equal("compile", from_file(Engine::new().compiler(), case, text.as_bytes())?, Err(line), || typed(text.as_bytes()))
}

/// What a row of any length starts with, what it goes on with, and what stands behind it.
const LONG_ROWS: [(&str, &str, &str); 6] = [
    ("x", "x", ""),
    ("x", "x", "\ngroup 8\n"),
    ("group 8", " ", "\n"),
    ("group", " 8", "\ngroup 9"),
    ("group ", "0", "8\n"),
    ("limit 1 2 3 4 2", " 5", "\n\n"),
];

/// Rows of 390 bytes and more: none is of the form, and each is refused at its first byte.
fn long_rows(_: &Pair, case: u64) -> Outcome {
    let (first, next, behind) = LONG_ROWS[case as usize];
    for length in [390, 511, 512, 513, 4095, 4096, 4097, 65_535, 65_536, 65_537, 131_072, 200_000, 1_000_000] {
        let row = first.to_string() + &next.repeat(length / next.len());
        let text = ["\ngroup 7\n", &row, behind].concat();
        let from_pipe = from_pieces(Engine::new().compiler(), &[text.as_bytes()])?;
        equal("compile", from_pipe, Err("R 18 9 3\n".to_string()), || typed(text.as_bytes()))?;
    }
    Ok(())
}

/// Ten million empty rows, and then a group; and one outside the form.
fn empty_rows(_: &Pair, case: u64) -> Outcome {
    const MANY: usize = 10_000_000;
    let (row, expected) = match case {
        0 => (&b"group 7"[..], Ok(vec![1, 0, 13, 0, 1, 0, 0, 0, 0, 4, 1, 0, 7])),
        _ => (&b"group"[..], Err("R 18 10000000 10000001\n".to_string())),
    };
    let said = from_pieces(Engine::new().compiler(), &[&vec![b'\n'; MANY], row])?;
    equal("compile", said, expected, || "ten million empty rows".to_string())
}

/// What a program makes of an input that comes in pieces. It may end before it has read everything.
pub fn from_pieces(mut program: Command, pieces: &[&[u8]]) -> Result<Result<Vec<u8>, String>, String> {
    let mut child = start(program.stdin(Stdio::piped()).stdout(Stdio::piped()))?;
    let mut stdin = child.stdin.take().expect("stdin is piped");
    let output = scope(|scope| {
        scope.spawn(move || {
            for piece in pieces {
                if stdin.write_all(piece).is_err() {
                    return;
                }
                sleep(PAUSE);
            }
        });
        child.wait_with_output()
    });
    Ok(wrote(output.map_err(|error| error.to_string())?))
}

/// What a program makes of a file.
pub fn from_file(mut program: Command, case: u64, text: &[u8]) -> Result<Result<Vec<u8>, String>, String> {
    let path = env::temp_dir().join(format!("mungaite-tests-{}-{case}", process::id()));
    let file = write(&path, text).and_then(|()| File::open(&path)).map_err(|error| error.to_string())?;
    remove_file(&path).map_err(|error| error.to_string())?;
    let child = start(program.stdin(file).stdout(Stdio::piped()))?;
    Ok(wrote(child.wait_with_output().map_err(|error| error.to_string())?))
}
