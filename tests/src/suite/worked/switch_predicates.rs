//! What separation, roster and companion ask of rules that wait for a switch. The query is 1 to 2, covered by rule 0,
//! which is on and so live, and the one constraint concerns it.

use super::predicates::run_under;
use super::small::*;
use crate::compare::{Outcome, Pair};
use crate::draft::{allow, switch};

type Groups = &'static [&'static [u16]];

/// What is asked, the groups, the rules after rule 0, the constraint, and whether it holds under each of some words.
type Row = (&'static str, Groups, fn() -> Vec<Vec<u8>>, fn() -> Vec<u8>, &'static [(u32, bool)]);

/// All switches but switch 0.
const OTHERS: u32 = 0xFFFF_FFFE;

#[rustfmt::skip]
pub const ROWS: &[Row] = &[
    ("separation: the rule to the first", &[], || vec![other_waits(0, 9, 1), other(9, 2)], || separation(1, 2),
        &[(0, true), (1, false), (2, true), (3, false), (OTHERS, true)]),
    ("separation: the rule to the second", &[], || vec![other(9, 1), other_waits(0, 9, 2)], || separation(1, 2),
        &[(0, true), (1, false), (2, true), (3, false), (OTHERS, true)]),
    ("separation: both, for one switch", &[], || vec![other_waits(0, 9, 1), other_waits(0, 9, 2)],
        || separation(1, 2), &[(0, true), (1, false), (OTHERS, true)]),
    ("separation: both, for two", &[], || vec![other_waits(0, 9, 1), other_waits(1, 9, 2)], || separation(1, 2),
        &[(0, true), (1, true), (2, true), (3, false)]),
    ("separation: one rule that is both", &[&[1, 2]], || vec![other_waits(0, 9, G0)], || separation(1, 2),
        &[(0, true), (1, false), (OTHERS, true)]),
    ("separation: from a group that holds the other's source", &[&[20, 21]],
        || vec![other_waits(0, G0, 1), other(20, 2)], || separation(1, 2), &[(0, true), (1, false)]),
    ("separation: another source to the first too", &[],
        || vec![other_waits(0, 9, 1), other(9, 2), other_waits(1, 8, 1)], || separation(1, 2),
        &[(0, true), (1, false), (2, true), (3, false)]),
    ("separation: with rule 0", &[], || vec![waits(0, 1, 1)], || separation(1, 2), &[(0, true), (1, false)]),
    ("separation: of another class alone", &[], || vec![on(9, 1), allow(9, 2, 7, 1, switch(0))], || separation(1, 2),
        &[(0, true), (1, false)]),
    ("separation: to neither", &[], || vec![other_waits(0, 9, 3), other(9, 2)], || separation(1, 2),
        &[(0, true), (1, true)]),
    ("roster: a source that is not listed", &[], || vec![other_waits(0, 9, 2)], || roster(1, 2, &[1]),
        &[(0, true), (1, false), (2, true), (3, false), (OTHERS, true)]),
    ("roster: a source that is listed", &[], || vec![other_waits(0, 9, 2)], || roster(1, 2, &[1, 9]),
        &[(0, true), (1, true)]),
    ("roster: to another", &[], || vec![other_waits(0, 9, 3)], || roster(1, 2, &[1]), &[(0, true), (1, true)]),
    ("roster: of two the second is not listed", &[], || vec![other_waits(0, 9, 2), other_waits(1, 8, 2)],
        || roster(1, 2, &[1, 9]), &[(0, true), (1, true), (2, false), (3, false)]),
    ("roster: of another action alone", &[], || vec![allow(9, 2, 5, 7, switch(0))], || roster(1, 2, &[1]),
        &[(0, true), (1, false)]),
    ("companion: the rule back", &[], || vec![other_waits(0, 2, 1)], || companion(1, 2),
        &[(0, false), (1, true), (2, false), (3, true), (OTHERS, false)]),
    ("companion: two rules back", &[], || vec![other_waits(0, 2, 1), other_waits(1, 2, 1)], || companion(1, 2),
        &[(0, false), (1, true), (2, true), (3, true), (4, false)]),
    ("companion: a rule the same way", &[], || vec![other_waits(0, 2, 1), other_waits(1, 1, 2)], || companion(1, 2),
        &[(0, false), (1, true), (2, false)]),
    ("companion: of another class alone", &[], || vec![allow(2, 1, 7, 1, switch(0))], || companion(1, 2),
        &[(0, false), (1, true)]),
];

pub fn run(pair: &Pair, case: u64) -> Outcome {
    let (what, groups, rules, constraint, words) = ROWS[case as usize];
    let mut cases = words.iter();
    cases.try_for_each(|&(word, holds)| run_under(word, (what, groups, rules, constraint, holds), pair))
}
