//! Rows of a text whose group is there already: 20 with the row's place, and the image of the rows before stands.

use super::both;
use super::build_buffers::{far, groups, many, runs, seven, Row};
use super::many::lone_rows;
use crate::compare::{Outcome, Pair};
use crate::draft::{group, transition, Draft};

/// What is built, the text, the buffer's length, the refusal and its place, the image afterwards.
#[rustfmt::skip]
pub const ROWS: &[Row] = &[
    ("a group twice", || "group 7\ngroup 7\n".into(), 40, Err((20, 8)), seven),
    ("a group twice, no line feed", || "group 7\ngroup 7".into(), 40, Err((20, 8)), seven),
    ("a group twice, no room", || "group 7\ngroup 7\n".into(), 13, Err((20, 8)), seven),
    ("a group twice, one byte short", || "group 7\ngroup 7\n".into(), 16, Err((20, 8)), seven),
    ("a group twice, empty rows between", || "group 7\n\n\ngroup 7\n".into(), 40, Err((20, 10)), seven),
    ("a group twice behind empty rows", || "\n\ngroup 7\ngroup 7".into(), 40, Err((20, 10)), seven),
    ("another between", || "group 7\ngroup 8\ngroup 7\ngroup 9".into(), 40, Err((20, 16)), || many(&[7, 8])),
    ("the second twice", || "group 7\ngroup 8\ngroup 8".into(), 40, Err((20, 16)), || many(&[7, 8])),
    ("three times", || "group 7\ngroup 7\ngroup 7".into(), 40, Err((20, 8)), seven),
    ("a rule between", || "group 7\ntrans g0 g0 1\ngroup 7".into(), 40, Err((20, 22)), group_and_rule),
    ("a rule that names the second", || "group 7\ngroup 7\ntrans g1 g0 1".into(), 40, Err((20, 8)), seven),
    // The order of a row's causes, and of the rows.
    ("member 7 twice over", || "group 7\ngroup 7 7\n".into(), 40, Err((11, 8)), seven),
    ("the members of a group, falling", || "group 7\ngroup 8 9\ngroup 9 8".into(), 40, Err((11, 18)), seven_and_pair),
    ("a group twice, a space behind", || "group 7\ngroup 7 \n".into(), 40, Err((18, 8)), seven),
    ("a group twice, a leading zero", || "group 7\ngroup 07\n".into(), 40, Err((18, 8)), seven),
    ("a group twice, then a row outside the form", || "group 7\ngroup 7\nGROUP".into(), 40, Err((20, 8)), seven),
    ("a row outside the form, then a group twice", || "group 7\nGROUP\ngroup 7".into(), 40, Err((18, 8)), seven),
    ("member 1024, then a group twice", || "group 7\ngroup 1024\ngroup 7".into(), 40, Err((11, 8)), seven),
    ("a row that does not fit, then a group twice", || "group 7\ngroup 8\ngroup 7".into(), 16, Err((13, 8)), seven),
    // No twins.
    ("a member more", || "group 8\ngroup 7 8".into(), 40, Ok(()), || image(&[&[8], &[7, 8]])),
    ("a member fewer", || "group 7 8\ngroup 7\ngroup 8".into(), 40, Ok(()), || image(&[&[7, 8], &[7], &[8]])),
    ("the same low byte", || "group 7\ngroup 263".into(), 40, Ok(()), || many(&[7, 263])),
    ("type 7 beside the group of 7", || "trans 7 7 1\ngroup 7\n".into(), 40, Ok(()), type_and_group),
    // Where there are 256 groups.
    ("the first of 256", || lone_rows(256) + "group 100\n", 1100, Err((20, 2560)), groups),
    ("the first of 256, no room", || lone_rows(256) + "group 100", 1033, Err((20, 2560)), groups),
    ("the last of 256", || lone_rows(256) + "group 355", 1100, Err((20, 2560)), groups),
    ("the last of 256, no room", || lone_rows(256) + "group 355", 1033, Err((20, 2560)), groups),
    ("none of 256", || lone_rows(256) + "group 356", 1100, Err((12, 2560)), groups),
    ("none of 256, then the first", || lone_rows(257) + "group 100", 1100, Err((12, 2560)), groups),
    ("the first of 256, then none", || lone_rows(256) + "group 100\ngroup 356", 1100, Err((20, 2560)), groups),
    ("20 at 70,008", || "group 7\n".to_string() + &far(70_000) + "group 7", 40, Err((20, 70_008)), seven),
];

pub fn run(pair: &Pair, case: u64) -> Outcome {
    runs(pair, ROWS[case as usize])
}

type Line = (fn() -> String, &'static str);

/// The program's lines.
pub const LINES: &[Line] = &[
    (|| "group 7\ngroup 7\n".into(), "R 20 8 2\n"),
    (|| "\ngroup 7\n\ngroup 7".into(), "R 20 10 4\n"),
    (|| "group 7\ngroup 8\ngroup 7\nGROUP".into(), "R 20 16 3\n"),
    (|| lone_rows(256) + "group 355", "R 20 2560 257\n"),
    (|| lone_rows(256) + "group 356", "R 12 2560 257\n"),
];

pub fn lines(pair: &Pair, case: u64) -> Outcome {
    let (text, line) = LINES[case as usize];
    both(pair, line, Err(line.to_string()), |subject| subject.compile(text().as_bytes()))
}

fn image(groups: &[&[u16]]) -> Vec<u8> {
    Draft { groups: groups.iter().map(|members| group(members)).collect(), ..Draft::default() }.image()
}

fn seven_and_pair() -> Vec<u8> {
    image(&[&[7], &[8, 9]])
}

fn group_and_rule() -> Vec<u8> {
    Draft { groups: vec![group(&[7])], rules: vec![transition(32768, 32768, 1)], ..Draft::default() }.image()
}

fn type_and_group() -> Vec<u8> {
    Draft { groups: vec![group(&[7])], rules: vec![transition(7, 7, 1)], ..Draft::default() }.image()
}
