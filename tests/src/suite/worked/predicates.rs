//! What roster and companion ask of the rules. The query is 1 to 2, covered by rule 0, and the one constraint concerns it.

use super::small::*;
use crate::compare::{Outcome, Pair};
use crate::draft::allow;
use crate::sample::under;

/// What is asked, the groups, the rules after rule 0, the constraint, and whether it holds.
pub type Row = (&'static str, &'static [&'static [u16]], fn() -> Vec<Vec<u8>>, fn() -> Vec<u8>, bool);

#[rustfmt::skip]
pub const ROSTER: &[Row] = &[
    ("the only source is listed", &[], || vec![], || roster(1, 2, &[1]), true),
    ("the only source is not listed", &[], || vec![], || roster(1, 2, &[9]), false),
    ("a second source is not listed", &[], || vec![other(9, 2)], || roster(1, 2, &[1]), false),
    ("both sources are listed", &[], || vec![other(9, 2)], || roster(1, 2, &[1, 9]), true),
    ("the last of 16 is needed", &[], || vec![other(9, 2)], || roster(1, 2, &[1, 20, 21, 22, 23, 24, 25, 26, 27, 28, 29, 30, 31, 32, 33, 9]), true),
    ("listed 265 for 9", &[], || vec![other(9, 2)], || roster(1, 2, &[1, 265]), false),
    ("a source to the first argument", &[], || vec![other(9, 1)], || roster(1, 2, &[1]), true),
    ("a source to another type", &[], || vec![other(9, 3)], || roster(1, 2, &[1]), true),
    ("from the second argument, not to it", &[], || vec![other(2, 9)], || roster(1, 2, &[1]), true),
    ("of another class alone", &[], || vec![allow(9, 2, 7, 1, 1)], || roster(1, 2, &[1]), false),
    ("of another action alone", &[], || vec![allow(9, 2, 5, 7, 1)], || roster(1, 2, &[1]), false),
    ("the rule is off", &[], || vec![off(9, 2)], || roster(1, 2, &[1]), true),
    ("a transition", &[], || vec![trans(9, 2)], || roster(1, 2, &[1]), true),
    // Touching, and within the union of the list.
    ("a group that touches the argument", &[&[2, 5]], || vec![other(9, G0)], || roster(1, 2, &[1]), false),
    ("an argument that is a group", &[&[2, 4]], || vec![other(9, 4)], || roster(1, G0, &[1]), false),
    ("a group of which a half is listed", &[&[1, 9]], || vec![other(G0, 2)], || roster(1, 2, &[1]), false),
    ("a group listed by two types", &[&[1, 9]], || vec![other(G0, 2)], || roster(1, 2, &[1, 9]), true),
    ("a group listed by two groups", &[&[1, 8, 9], &[1, 8], &[8, 9]], || vec![other(G0, 2)], || roster(1, 2, &[G1, 32770]), true),
    ("a group is listed", &[&[1, 9]], || vec![other(9, 2)], || roster(1, 2, &[G0]), true),
    // What is known of a group as destination says nothing of it as source.
    ("a group that touches and is not listed", &[&[2, 9]], || vec![other(1, G0), other(G0, 2)], || roster(1, 2, &[1, 2]), false),
    ("a group that does not touch and is listed", &[&[8, 9]], || vec![other(1, G0), other(G0, 2)], || roster(1, 2, &[1, 8, 9]), true),
];

#[rustfmt::skip]
pub const COMPANION: &[Row] = &[
    ("no rule back", &[], || vec![], || companion(1, 2), false),
    ("a rule back", &[], || vec![other(2, 1)], || companion(1, 2), true),
    ("the last of several", &[], || vec![other(9, 9), other(8, 8), other(2, 1)], || companion(1, 2), true),
    ("a rule the same way", &[], || vec![other(1, 2)], || companion(1, 2), false),
    ("from the second argument to another type", &[], || vec![other(2, 9)], || companion(1, 2), false),
    ("from another type to the first argument", &[], || vec![other(9, 1)], || companion(1, 2), false),
    ("two rules, one from the second, one to the first", &[], || vec![other(2, 9), other(9, 1)], || companion(1, 2), false),
    ("of another class alone", &[], || vec![allow(2, 1, 7, 1, 1)], || companion(1, 2), true),
    ("of another action alone", &[], || vec![allow(2, 1, 5, 7, 1)], || companion(1, 2), true),
    ("the rule back is off", &[], || vec![off(2, 1)], || companion(1, 2), false),
    ("a transition back", &[], || vec![trans(2, 1)], || companion(1, 2), false),
    // Touching.
    ("groups that touch the arguments", &[&[2, 5], &[1, 6]], || vec![other(G0, G1)], || companion(1, 2), true),
    ("a group that touches both", &[&[1, 2]], || vec![other(G0, G0)], || companion(1, 2), true),
    ("arguments that are groups", &[&[1, 3], &[2, 4]], || vec![other(4, 3)], || companion(G0, G1), true),
    ("groups the same way", &[&[1, 3], &[2, 4]], || vec![other(3, 4)], || companion(G0, G1), false),
    // What is known of a group as destination says nothing of it as source.
    ("a group that touches the second alone", &[&[2, 5]], || vec![other(9, G0), other(G0, 1)], || companion(1, 2), true),
    ("a group that touches the first alone", &[&[1, 5]], || vec![other(9, G0), other(G0, 1)], || companion(1, 2), false),
];

pub fn run(row: Row, pair: &Pair) -> Outcome {
    run_under(0, row, pair)
}

/// The same under a switch word.
pub fn run_under(word: u32, (what, groups, rules, constraint, holds): Row, pair: &Pair) -> Outcome {
    let image = policy(groups, &[vec![on(1, 2)], rules()].concat(), &[constraint()]);
    let expected = if holds { p(0) } else { u(0, 0) };
    super::both(pair, what, expected, |subject| subject.decide(&image, under(word, ASKED)))
}

pub fn rosters(pair: &Pair, case: u64) -> Outcome {
    run(ROSTER[case as usize], pair)
}

pub fn companions(pair: &Pair, case: u64) -> Outcome {
    run(COMPANION[case as usize], pair)
}
