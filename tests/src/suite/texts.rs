//! Policies from texts: random ones, every cut and change of the sample typed as text, every buffer for it, and texts
//! at the limits.

use super::limits::largest;
use crate::compare::{Outcome, Pair};
use crate::generate::{build_case, compile_case};
use crate::runner::{Cases, Count};
use crate::sample::SAMPLE_TEXT;
use crate::text::text_of;
use mungaite::LARGEST;

const LENGTH: u64 = SAMPLE_TEXT.len() as u64;

/// How long a buffer of the sample's size and a bit more is.
const ROOM: usize = 100;

pub const BUILD: Cases = Cases { name: "random/build", count: Count::Random(30_000), run: build };

pub const TESTS: &[Cases] = &[
    BUILD,
    Cases { name: "random/compile", count: Count::Random(400), run: compile },
    Cases { name: "sample/build-changes", count: Count::Listed(256 * LENGTH), run: change },
    Cases { name: "sample/build-cuts", count: Count::Listed(LENGTH + 1), run: cut },
    Cases { name: "sample/build-buffers", count: Count::Listed(ROOM as u64), run: buffer },
    Cases { name: "sample/compile-cuts", count: Count::Listed(LENGTH + 1), run: compile_cut },
    Cases { name: "limits/build", count: Count::Listed(3 * AT_LIMITS), run: at_limit },
    Cases { name: "limits/compile", count: Count::Listed(AT_LIMITS), run: compile_at_limit },
];

/// Rows behind the text of the largest policy: a section at its limit takes no more.
const BEHIND: [&str; 8] = [
    "\ngroup 7",
    "\n\ntrans 1 2 3 4",
    "",
    "\n\n",
    "\nallow 1 2 3 4 on",
    "\ntrans g255 g0 3",
    "\nlimit 5 1 10 21 0",
    "\n\n\ngroup 1024",
];

/// With and without the line feed of the last row.
const AT_LIMITS: u64 = 2 * BEHIND.len() as u64;

fn build(pair: &Pair, seed: u64) -> Outcome {
    let (text, buffer) = build_case(seed);
    pair.build(&text, &buffer)
}

fn compile(pair: &Pair, seed: u64) -> Outcome {
    pair.compile(&compile_case(seed))
}

/// Case 256 p + v is the sample's text with value v at place p.
fn change(pair: &Pair, case: u64) -> Outcome {
    let mut text = SAMPLE_TEXT.as_bytes().to_vec();
    text[(case / 256) as usize] = (case % 256) as u8;
    pair.build(&text, &room(ROOM))
}

/// Case n is the first n bytes, with and without what follows the next row.
fn cut(pair: &Pair, case: u64) -> Outcome {
    let (front, rest) = SAMPLE_TEXT.as_bytes().split_at(case as usize);
    let next = rest.iter().position(|&byte| byte == b'\n').unwrap_or(rest.len());
    pair.build(front, &room(ROOM))?;
    pair.build(rest, &room(ROOM))?;
    pair.build(&[front, &rest[next..]].concat(), &room(ROOM))
}

/// Case n is a buffer of n bytes, for the sample's text with and without its last line feed, and with a row behind it
/// that is outside the form.
fn buffer(pair: &Pair, case: u64) -> Outcome {
    let (text, room) = (SAMPLE_TEXT.as_bytes(), room(case as usize));
    pair.build(text, &room)?;
    pair.build(&text[..text.len() - 1], &room)?;
    pair.build(&[b"\n\n", text, b"trans\n"].concat(), &room)
}

fn compile_cut(pair: &Pair, case: u64) -> Outcome {
    pair.compile(&SAMPLE_TEXT.as_bytes()[..case as usize])
}

/// Each text in a buffer that is one byte short of the largest image, in one of its length, and in a longer one.
fn at_limit(pair: &Pair, case: u64) -> Outcome {
    let length = [LARGEST, LARGEST - 1, LARGEST + 50][(case % 3) as usize];
    pair.build(&largest_text(case / 3), &room(length))
}

fn compile_at_limit(pair: &Pair, case: u64) -> Outcome {
    pair.compile(&largest_text(case))
}

/// The text of the largest policy and what is behind it; with a line feed at the end, and without.
fn largest_text(case: u64) -> Vec<u8> {
    let mut text = text_of(largest().records());
    text.pop();
    text.extend(BEHIND[(case / 2) as usize].bytes());
    text.extend(case.is_multiple_of(2).then_some(b'\n'));
    text
}

/// A buffer of so many bytes, each another than the one before.
pub fn room(length: usize) -> Vec<u8> {
    (0..length).map(|n| (n * 7 + 1) as u8).collect()
}
