//! A policy with every section at its limit, decided by its last records.

use super::run::asked;
use super::small::{n, p, u};
use super::{both, no};
use crate::compare::{Outcome, Pair};
use crate::draft::{allow, constraint, group, Draft};
use crate::sample::query;
use crate::subject::Answer;
use mungaite::{Query, Run};

type Row = (Query, Answer);

/// The last group: 960 to 1023.
const G255: u16 = 32768 + 255;

/// Of class 9 there is only the last rule, and only a ban, the last constraint. Of class 8 are the other rules, 1 to 2;
/// of action 7 the other constraints.
pub const ROWS: &[Row] = &[
    (query(1023, 1023, 9, 9), u(1023, 255)),
    (query(G255, 960, 9, 9), u(1023, 255)),
    (query(G255, G255, 9, 9), u(1023, 255)),
    (query(1023, 959, 9, 9), n(2, 1023)),
    (query(1023, 1022, 9, 8), n(4, 1023)),
    (query(1, 2, 8, 9), p(0)),
    (query(32768, 32768, 9, 9), n(1, 0)),
    (query(G255 + 1, 1023, 9, 9), no(8, 0)),
    (query(1023, G255 + 1, 9, 9), no(9, 0)),
];

pub fn run(pair: &Pair, case: u64) -> Outcome {
    let (query, expected) = ROWS[case as usize];
    let image = image();
    both(pair, &format!("{query:?}"), expected, |subject| subject.decide(&image, query))
}

/// The same queries as one run, whose first row is not Permitted.
pub fn as_run(pair: &Pair, _: u64) -> Outcome {
    let (queries, answers): (Vec<Query>, Vec<Answer>) = ROWS.iter().copied().unzip();
    let expected = (Ok(Run::Unfit { row: 0 }), answers);
    both(pair, "every query", expected, |subject| asked(subject, &image(), &queries, ROWS.len()))
}

/// The same queries, asked of the program.
pub fn permit(pair: &Pair, _: u64) -> Outcome {
    let queries = ROWS.iter().flat_map(|(query, _)| query.to_bytes()).collect();
    let input = [image(), queries].concat();
    let expected = "U 1023 255\nU 1023 255\nU 1023 255\nN 2 1023\nN 4 1023\nP 0\nN 1 0\nR 8 0\nR 9 0\n";
    both(pair, "every query", expected.to_string(), |subject| subject.permit(&input))
}

fn image() -> Vec<u8> {
    let mut draft = Draft {
        groups: (0..256).map(|n| group(&[1, 2 + n])).collect(),
        rules: vec![allow(1, 2, 8, 9, 1); 1024],
        constraints: vec![constraint(8, 7, 1, 2, 0, &[]); 256],
    };
    draft.groups[255] = group(&(960..1024).collect::<Vec<u16>>());
    draft.rules[1023] = allow(G255, G255, 9, 9, 1);
    draft.constraints[255] = constraint(9, 9, G255, G255, 0, &[]);
    draft.image()
}
