//! The C function of building, whose answer is a number: the image's length, or the refusal's number in the highest 16
//! bits and its place in the others.

use super::many::lone_rows;
use crate::compare::{equal, Outcome, Pair};
use crate::numbers;
use crate::sample::SAMPLE_TEXT;

type Row = (&'static str, fn() -> String, usize, u64);

/// What is built, the text, the buffer's length, and the answer.
pub const ROWS: &[Row] = &[
    ("the sample", || SAMPLE_TEXT.into(), 80, 0x0000_0000_0000_0050),
    ("no text", String::new, 9, 0x0000_0000_0000_0009),
    ("no text in 8 bytes", String::new, 8, 0x000D_0000_0000_0000),
    ("no text in no byte", String::new, 0, 0x000D_0000_0000_0000),
    ("256 groups", || lone_rows(256), 1033, 0x0000_0000_0000_0409),
    ("11 at 0", || "group 1024".into(), 80, 0x000B_0000_0000_0000),
    ("18 at 1", || "\nGROUP".into(), 80, 0x0012_0000_0000_0001),
    ("12 at 2560", || lone_rows(257), 2000, 0x000C_0000_0000_0A00),
    ("20 at 8", || "group 7\ngroup 7\n".into(), 80, 0x0014_0000_0000_0008),
    ("20 at 65,544", || "group 7\n".to_string() + &"\n".repeat(65_536) + "group 7", 80, 0x0014_0000_0001_0008),
    ("13 at 105", || SAMPLE_TEXT.into(), 79, 0x000D_0000_0000_0069),
    ("11 at 65,536", || "\n".repeat(65_536) + "group 1024", 80, 0x000B_0000_0001_0000),
    ("18 at 16,777,216", || "\n".repeat(16_777_216) + "GROUP", 80, 0x0012_0000_0100_0000),
];

pub fn run(_: &Pair, case: u64) -> Outcome {
    let (what, text, length, said) = ROWS[case as usize];
    equal("build", numbers::build(text().as_bytes(), &mut vec![0; length]), said, || what.to_string())
}
