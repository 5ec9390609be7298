//! Queries on an old image, as the decision is defined, and with their references changed on the new one: the answer is
//! the same, with its rule, its constraint and its steps.

use super::both;
use super::small::*;
use crate::compare::{equal, Outcome, Pair};
use crate::draft::allow;
use crate::sample::under;
use crate::subject::Answer;
use mungaite::Query;

/// What is asked, the old image, the query there, the query on the new image, and the answer to both.
type Row = (&'static str, fn() -> Vec<u8>, Query, Query, Answer);

#[rustfmt::skip]
pub const ROWS: &[Row] = &[
    // The cover.
    ("an equal group", || policy(&[&[1, 3], &[1, 3]], &[on(G0, 2)], &[]), ask(G1, 2), ask(G0, 2), p(0)),
    ("an equal group in the rule", || policy(&[&[1, 3], &[1, 3]], &[on(G1, 2)], &[]), ask(G0, 2), ask(G0, 2), p(0)),
    ("an equal group as destination", || policy(&[&[2, 3], &[2, 3]], &[on(1, G1)], &[]), ask(1, G0), ask(1, G0), p(0)),
    ("a member", || policy(&[&[1, 3], &[1, 3]], &[on(G1, 2)], &[]), ask(3, 2), ask(3, 2), p(0)),
    ("a group that moves", || policy(&[&[7], &[7], &[1, 3]], &[on(G2, 2)], &[]), ask(G2, 2), ask(G1, 2), p(0)),
    ("a group that moves, as destination", || policy(&[&[7], &[7], &[2, 3]], &[on(1, G2)], &[]), ask(1, G2),
        ask(1, G1), p(0)),
    ("two groups that move", || policy(&[&[7], &[7], &[1, 3], &[2, 4]], &[on(G2, G2 + 1)], &[]), ask(G2, G2 + 1),
        ask(G1, G2), p(0)),
    ("a transition of groups that move", || policy(&[&[7], &[7], &[1, 3]], &[trans(G2, G1)], &[]), ask(1, G1),
        ask(1, G0), p(0)),
    ("the second of two rules", || policy(&[&[7], &[7], &[1]], &[on(G1, 2), on(G2, 2)], &[]), ask(1, 2), ask(1, 2),
        p(1)),
    ("the first of two rules that become equal", || policy(&[&[1], &[1]], &[on(G1, 2), on(G0, 2)], &[]), ask(G0, 2),
        ask(G0, 2), p(0)),
    // Denied queries, and how near they came.
    ("stopped at the source", || policy(&[&[7], &[7], &[1, 3]], &[on(G2, 2)], &[]), ask(G1, 2), ask(G0, 2), n(1, 0)),
    ("stopped at the destination", || policy(&[&[7], &[7], &[1, 3]], &[off(1, 2), on(G2, G1)], &[]), ask(1, G2),
        ask(1, G1), n(2, 1)),
    ("stopped at the class", || policy(&[&[1], &[1]], &[allow(G1, 2, 6, 1, 1)], &[]), ask(G1, 2), ask(G0, 2), n(3, 0)),
    ("stopped at the action", || policy(&[&[1], &[1]], &[on(9, 9), allow(G1, 2, 5, 2, 1)], &[]), ask(G0, 2),
        ask(G0, 2), n(4, 1)),
    ("off", || policy(&[&[1], &[1]], &[off(G0, G1)], &[]), ask(G1, G0), ask(G0, G0), n(0, 0)),
    ("no rules", || policy(&[&[1], &[1]], &[], &[ban(G0, G1)]), ask(G1, G1), ask(G0, G0), NO_RULES),
    // Constraints.
    ("a ban on the twin", || policy(&[&[1, 3], &[1, 3]], &[on(G0, 2)], &[ban(G1, 2)]), ask(G0, 2), ask(G0, 2), u(0, 0)),
    ("a ban on a group that moves", || policy(&[&[7], &[7], &[2, 3]], &[on(1, G2)], &[ban(1, G1), ban(1, G2)]),
        ask(1, G2), ask(1, G1), u(0, 1)),
    ("a ban on another group", || policy(&[&[7], &[7], &[1, 3]], &[on(G2, 2)], &[ban(G1, 2)]), ask(G2, 2), ask(G1, 2),
        p(0)),
    ("bans that become equal", || policy(&[&[1], &[1]], &[on(1, 2)], &[ban(3, 2), ban(G1, 2), ban(G0, 2)]), ASKED,
        ASKED, u(0, 1)),
    ("a separation of twins",
        || policy(&[&[8, 9], &[8, 9]], &[on(1, 2), other(G0, 1), other(G1, 2)],
        &[separation(1, 2)]), ASKED, ASKED, u(0, 0)),
    ("a separation of twins, the higher first",
        || policy(&[&[8, 9], &[8, 9]], &[on(1, 2), other(G1, 1), other(G0, 2)],
        &[separation(1, 2)]), ASKED, ASKED, u(0, 0)),
    ("a separation of a twin and another",
        || policy(&[&[8], &[8], &[9]], &[on(1, 2), other(G1, 1), other(G2, 2)],
        &[separation(1, 2)]), ASKED, ASKED, p(0)),
    ("a separation whose arguments are twins", || policy(&[&[1, 2], &[1, 2]], &[on(1, 2)], &[separation(G0, G1)]),
        ask(1, 2), ask(1, 2), u(0, 0)),
    ("a roster of a twin", || policy(&[&[1, 3], &[1, 3]], &[on(G0, 2)], &[roster(1, 2, &[G1])]), ASKED, ASKED, p(0)),
    ("a roster of a group that moves", || policy(&[&[7], &[7], &[1, 3]], &[on(G2, 2)], &[roster(1, 2, &[9, G2])]),
        ASKED, ASKED, p(0)),
    ("a roster of another group", || policy(&[&[7], &[7], &[1, 3]], &[on(G2, 2)], &[roster(1, 2, &[9, G1])]), ASKED,
        ASKED, u(0, 0)),
    ("a roster that twins break",
        || policy(&[&[1, 3], &[1, 3], &[1]], &[on(1, 2), other(G1, 2)], &[roster(1, 2, &[G2])]), ASKED, ASKED, u(0,
        0)),
    ("a companion by a twin", || policy(&[&[1, 3], &[1, 3]], &[on(G0, 2), other(2, G1)], &[companion(G0, 2)]),
        ask(G1, 2), ask(G0, 2), p(0)),
    ("a companion of a group that moves",
        || policy(&[&[7], &[7], &[1, 3]], &[on(1, 2), other(2, G2)], &[companion(G2, 2)]), ASKED, ASKED, p(0)),
    ("no companion", || policy(&[&[7], &[7], &[1, 3]], &[on(1, 2), other(2, G1)], &[companion(G2, 2)]), ASKED, ASKED,
        u(0, 0)),
    // Switches.
    ("a switch that is on", || policy(&[&[1], &[1]], &[waits(3, G1, 2)], &[]), under(8, ask(G1, 2)),
        under(8, ask(G0, 2)), p(0)),
    ("a switch that is off", || policy(&[&[1], &[1]], &[waits(3, G1, 2)], &[]), under(4, ask(G1, 2)),
        under(4, ask(G0, 2)), n(0, 0)),
    // The last of 256.
    ("the last of 256, all alike", || many(&[on(33_023, 2)], &[ban(7, 33_022)]), ask(33_020, 2), ask(G0, 2), p(0)),
];

/// 256 groups of 7.
fn many(rules: &[Vec<u8>], constraints: &[Vec<u8>]) -> Vec<u8> {
    policy(&[&[7_u16][..]; 256], rules, constraints)
}

pub fn run(pair: &Pair, case: u64) -> Outcome {
    let (what, old, before, after, expected) = ROWS[case as usize];
    let old = old();
    let policy = pair.model.old_policy(&old).map_err(|refusal| format!("{what}: {refusal}"))?;
    equal("old image", pair.model.answer(&policy, before), expected, || what.to_string())?;
    both(pair, what, expected, |subject| {
        let mut buffer = vec![0; old.len()];
        let length = subject.convert(&old, &mut buffer)?;
        subject.decide(&buffer[..length], after)
    })
}
