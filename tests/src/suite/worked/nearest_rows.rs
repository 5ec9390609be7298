//! How near the rows of a run came, each by its own: as answers of the run, and as the program's lines.

use super::nearest::near;
use super::no;
use super::run::as_rows;
use super::small::*;
use crate::compare::{Outcome, Pair};
use crate::sample::{query, EMPTY, SAMPLE};
use crate::subject::Answer;
use mungaite::{Query, Run};

type Row = (&'static str, fn() -> Vec<u8>, &'static [Query], Run, &'static [Answer], &'static str);

/// What is asked, an image, the rows, what the run says, their answers, and their lines.
#[rustfmt::skip]
pub const ROWS: &[Row] = &[
    ("the document's three", sample, &[query(10, 21, 5, 1), query(13, 21, 5, 1), query(12, 20, 9, 9)],
        Run::Unfit { row: 1 }, &[p(0), n(1, 0), p(2)], "P 0\nN 1 0\nP 2\n"),
    ("by each rule of the sample", sample, &[query(10, 30, 5, 1), query(20, 21, 5, 2), query(12, 21, 5, 1)],
        Run::Unfit { row: 0 }, &[n(2, 0), n(2, 1), n(2, 2)], "N 2 0\nN 2 1\nN 2 2\n"),
    ("another class, another action", sample, &[query(10, G0, 6, 1), query(20, 30, 5, 1), query(20, 30, 6, 2)],
        Run::Unfit { row: 0 }, &[n(3, 0), n(4, 1), n(3, 1)], "N 3 0\nN 4 1\nN 3 1\n"),
    ("no rules", || EMPTY.to_vec(), &[query(0, 0, 0, 0), query(1024, 0, 0, 0), query(1023, 0, 65535, 65535)],
        Run::Unfit { row: 0 }, &[NO_RULES, no(8, 0), NO_RULES], "N -\nR 8 0\nN -\n"),
    ("all rules off", || policy(&[], &[near(0), near(0)], &[]), &[ASKED, ask(7, 7)],
        Run::Unfit { row: 0 }, &[n(0, 0), n(0, 0)], "N 0 0\nN 0 0\n"),
    ("falling", ladder, &[NEAREST, ask(1, 2), ask(1, 9), ask(9, 9)],
        Run::Unfit { row: 0 }, &[n(4, 3), n(3, 2), n(2, 1), n(1, 1)], "N 4 3\nN 3 2\nN 2 1\nN 1 1\n"),
    ("rising", ladder, &[ask(9, 9), ask(1, 9), ask(1, 2), NEAREST],
        Run::Unfit { row: 0 }, &[n(1, 1), n(2, 1), n(3, 2), n(4, 3)], "N 1 1\nN 2 1\nN 3 2\nN 4 3\n"),
    ("behind a Permitted row", ladder, &[NEAREST, COVERED, ask(9, 9), COVERED, ask(1, 9)],
        Run::Unfit { row: 0 }, &[n(4, 3), p(3), n(1, 1), p(3), n(2, 1)], "N 4 3\nP 3\nN 1 1\nP 3\nN 2 1\n"),
    ("behind an UnKnown row", banned, &[COVERED, ask(9, 9), COVERED, NEAREST],
        Run::Unfit { row: 0 }, &[u(3, 0), n(1, 1), u(3, 0), n(4, 3)], "U 3 0\nN 1 1\nU 3 0\nN 4 3\n"),
    ("behind a refused row", ladder, &[NEAREST, ask(1024, 2), ask(9, 9), ask(1, G0), ask(1, 2)],
        Run::Unfit { row: 0 }, &[n(4, 3), no(8, 0), n(1, 1), no(9, 0), n(3, 2)], "N 4 3\nR 8 0\nN 1 1\nR 9 0\nN 3 2\n"),
    ("the same again", ladder, &[ask(1, 9), ask(1, 9), ask(9, 9), ask(1, 9)],
        Run::Unfit { row: 0 }, &[n(2, 1), n(2, 1), n(1, 1), n(2, 1)], "N 2 1\nN 2 1\nN 1 1\nN 2 1\n"),
    ("rule 1,023", full, &[ask(1, 2), ask(9, 9)],
        Run::Unfit { row: 0 }, &[n(4, 1023), n(1, 0)], "N 4 1023\nN 1 0\n"),
    ("the last row alone", ladder, &[COVERED, COVERED, NEAREST],
        Run::Unfit { row: 2 }, &[p(3), p(3), n(4, 3)], "P 3\nP 3\nN 4 3\n"),
];

/// Covered by the ladder's rule 3, and stopped there at the action.
const COVERED: Query = query(1, 2, 7, 7);
const NEAREST: Query = query(1, 2, 7, 8);

pub fn run(pair: &Pair, case: u64) -> Outcome {
    let (what, image, queries, said, answers, lines) = ROWS[case as usize];
    as_rows(pair, what, &image(), queries, Ok(said), answers, lines)
}

fn sample() -> Vec<u8> {
    SAMPLE.to_vec()
}

/// Off; 1 to 3; allow 1 to 2, class 6, action 1; allow 1 to 2, class 7, action 7.
fn ladder() -> Vec<u8> {
    policy(&[], &[near(0), near(2), near(3), other(1, 2)], &[])
}

/// The same with a ban on 1, 2 for class 7, action 7.
fn banned() -> Vec<u8> {
    policy(&[], &[near(0), near(2), near(3), other(1, 2)], &[crate::draft::constraint(7, 7, 1, 2, 0, &[])])
}

/// 1,023 rules that stop 1 to 2 at the class, and one that stops it at the action.
fn full() -> Vec<u8> {
    policy(&[], &[vec![near(3); 1023], vec![near(4)]].concat(), &[])
}
