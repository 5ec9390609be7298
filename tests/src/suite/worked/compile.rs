//! What the program `compile` writes: an image, or the line of a refusal with the row's number, counted from 1.

use super::both;
use super::many::lone_rows;
use crate::compare::{Outcome, Pair};
use crate::sample::{SAMPLE, SAMPLE_TEXT};

type Row = (&'static str, fn() -> String, Result<&'static [u8], &'static str>);

#[rustfmt::skip]
pub const ROWS: &[Row] = &[
    ("the sample", || SAMPLE_TEXT.into(), Ok(&SAMPLE)),
    ("the sample without its last line feed", || SAMPLE_TEXT.trim_end().into(), Ok(&SAMPLE)),
    ("no text", String::new, Ok(EMPTY)),
    ("line feeds alone", || "\n".repeat(70_000), Ok(EMPTY)),
    ("a group behind 70,000 empty rows", || "\n".repeat(70_000) + "group 7", Ok(SEVEN)),
    ("the first row", || "GROUP 7".into(), Err("R 18 0 1\n")),
    ("the first row, with a line feed", || "GROUP 7\n".into(), Err("R 18 0 1\n")),
    ("the second row", || "group 7\nGROUP 7\n".into(), Err("R 18 8 2\n")),
    ("the second row, empty rows behind it", || "group 7\nGROUP 7\n\n\n".into(), Err("R 18 8 2\n")),
    ("the second row, the first is empty", || "\nGROUP 7".into(), Err("R 18 1 2\n")),
    ("the fourth row, the third is empty", || "group 7\ngroup 8\n\ngroup 7 7".into(), Err("R 11 17 4\n")),
    ("the fourth row, the first three are empty", || "\n\n\ngroup g0\ngroup 7\n".into(), Err("R 18 3 4\n")),
    ("the eighth row, behind the sample", || SAMPLE_TEXT.to_string() + "trans g1 1 2\n", Err("R 11 123 8\n")),
    ("the last row of the sample cut", || SAMPLE_TEXT[..SAMPLE_TEXT.len() - 3].into(), Err("R 18 105 7\n")),
    ("carriage returns", || SAMPLE_TEXT.replace('\n', "\r\n"), Err("R 18 0 1\n")),
    ("a carriage return between rows", || "group 7\n\r\ngroup 8\n".into(), Err("R 18 8 2\n")),
    ("a carriage return at the end", || "group 7\n\r".into(), Err("R 18 8 2\n")),
    ("a 257th group", || lone_rows(257), Err("R 12 2560 257\n")),
    ("a 257th group, a row empty", || lone_rows(128) + "\n" + &lone_rows(257)[1280..], Err("R 12 2561 258\n")),
    ("a 1,025th rule", || "trans 1 2 3\n".repeat(1025), Err("R 12 12288 1025\n")),
    ("a 257th limit", || "limit 1 2 3 4 0\n".repeat(257), Err("R 12 4096 257\n")),
    ("a place and a row above 65,535", || "\n".repeat(70_000) + "group", Err("R 18 70000 70001\n")),
    ("a row of 389 bytes, the longest of the form", longest, Err("R 11 0 1\n")),
    ("a row of 390 bytes", || longest() + "7", Err("R 18 0 1\n")),
    ("a row of 390 bytes, the last a space", || longest() + " ", Err("R 18 0 1\n")),
    ("a row of 391 bytes, 65 members", || "\n".to_string() + &longest() + " 7\n", Err("R 18 1 2\n")),
    ("a row of 390 bytes, then a group", || longest() + "7\ngroup 7\n", Err("R 18 0 1\n")),
    ("a row of 65,535 bytes", || "group 7\n".to_string() + &"x".repeat(65_535), Err("R 18 8 2\n")),
    ("a row of 65,536 bytes", || "group 7\n".to_string() + &"x".repeat(65_536) + "\n", Err("R 18 8 2\n")),
    ("a row of 65,537 bytes", || "group 7\n".to_string() + &" ".repeat(65_537), Err("R 18 8 2\n")),
    ("a row of 65,543 bytes that ends as a group", || "x".repeat(65_536) + "group 7", Err("R 18 0 1\n")),
    ("a row of 200,000 bytes", || "\n\n".to_string() + &"group 7 ".repeat(25_000), Err("R 18 2 3\n")),
    ("a row of 200,005 bytes, then a group", || "group".to_string() + &" 7".repeat(100_000) + "\ngroup 7\n",
        Err("R 18 0 1\n")),
];

const EMPTY: &[u8] = &[1, 0, 9, 0, 0, 0, 0, 0, 0];
const SEVEN: &[u8] = &[1, 0, 13, 0, 1, 0, 0, 0, 0, 4, 1, 0, 7];

/// A group of 64 members of five digits each, none of which is a basic type.
fn longest() -> String {
    "group".to_string() + &" 32767".repeat(64)
}

pub fn run(pair: &Pair, case: u64) -> Outcome {
    let (what, text, expected) = ROWS[case as usize];
    let expected = expected.map(<[u8]>::to_vec).map_err(str::to_string);
    both(pair, what, expected, |subject| subject.compile(text().as_bytes()))
}
