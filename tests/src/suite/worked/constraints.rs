//! Which constraints a covered query meets, and which is named: here most are bans, which are false within their
//! arguments.

use super::small::*;
use crate::compare::{Outcome, Pair};
use crate::draft::{allow, constraint, transition};
use crate::sample::query;

#[rustfmt::skip]
pub const ROWS: &[Row] = &[
    ("a ban", || policy(&[], &[on(1, 2)], &[ban(1, 2)]), ASKED, u(0, 0)),
    ("two bans", || policy(&[], &[on(1, 2)], &[ban(1, 2), ban(1, 2)]), ASKED, u(0, 0)),
    ("a ban that is true, then one that is false", || policy(&[], &[on(1, 2)], &[ban(3, 2), ban(1, 2)]), ASKED, u(0, 1)),
    ("a ban that is false, then one that is true", || policy(&[], &[on(1, 2)], &[ban(1, 2), ban(3, 2)]), ASKED, u(0, 0)),
    ("a roster that is true, then a ban", || policy(&[], &[on(1, 2)], &[roster(1, 2, &[1]), ban(1, 2)]), ASKED, u(0, 1)),
    ("the lowest of each", || policy(&[], &[off(1, 2), on(2, 1), on(1, 2), on(1, 2)], &[ban(2, 1), ban(1, 2), ban(1, 2)]), ASKED, u(2, 1)),
    // Class and action.
    ("a ban of another class", || policy(&[], &[on(1, 2)], &[constraint(6, 1, 1, 2, 0, &[])]), ASKED, p(0)),
    ("a ban of another action", || policy(&[], &[on(1, 2)], &[constraint(5, 2, 1, 2, 0, &[])]), ASKED, p(0)),
    ("class for action, action for class", || policy(&[], &[on(1, 2)], &[constraint(1, 5, 1, 2, 0, &[])]), ASKED, p(0)),
    ("class 261", || policy(&[], &[on(1, 2)], &[constraint(261, 1, 1, 2, 0, &[])]), ASKED, p(0)),
    ("action 257", || policy(&[], &[on(1, 2)], &[constraint(5, 257, 1, 2, 0, &[])]), ASKED, p(0)),
    ("the highest numbers", || policy(&[], &[allow(1, 2, 65535, 65535, 1)], &[constraint(65535, 65535, 1, 2, 0, &[])]), query(1, 2, 65535, 65535), u(0, 0)),
    // No rule covers: NotPermitted, and constraints play no part.
    ("a ban, and no rule", || policy(&[], &[], &[ban(1, 2)]), ASKED, NO_RULES),
    ("a ban, and a rule that is off", || policy(&[], &[off(1, 2)], &[ban(1, 2)]), ASKED, n(0, 0)),
    ("a companion without its rule, and no rule", || policy(&[], &[other(1, 2)], &[companion(1, 2)]), ASKED, n(3, 0)),
    // A query that a transition covers meets the constraints of its own class and action.
    ("a transition and a ban", || policy(&[], &[trans(1, 2)], &[ban(1, 2)]), ASKED, u(0, 0)),
    ("a transition of another class and a ban", || policy(&[], &[transition(1, 2, 9)], &[ban(1, 2)]), ASKED, u(0, 0)),
    ("a ban of the transition's class", || policy(&[], &[transition(1, 2, 9)], &[constraint(9, 1, 1, 2, 0, &[])]), ASKED, p(0)),
    // The arguments.
    ("another first argument", || policy(&[], &[on(1, 2)], &[ban(3, 2)]), ASKED, p(0)),
    ("another second argument", || policy(&[], &[on(1, 2)], &[ban(1, 3)]), ASKED, p(0)),
    ("the arguments the other way", || policy(&[], &[on(1, 2)], &[ban(2, 1)]), ASKED, p(0)),
    ("first argument 257", || policy(&[], &[on(1, 2)], &[ban(257, 2)]), ASKED, p(0)),
    ("second argument 258", || policy(&[], &[on(1, 2)], &[ban(1, 258)]), ASKED, p(0)),
    ("within a group", || policy(&[&[1, 3]], &[on(1, 2)], &[ban(G0, 2)]), ASKED, u(0, 0)),
    ("within a group, as destination", || policy(&[&[2, 3]], &[on(1, 2)], &[ban(1, G0)]), ASKED, u(0, 0)),
    ("a group around the first argument", || policy(&[&[1, 3]], &[on(G0, 2)], &[ban(1, 2)]), ask(G0, 2), p(0)),
    ("a group around the second argument", || policy(&[&[2, 3]], &[on(1, G0)], &[ban(1, 2)]), ask(1, G0), p(0)),
    ("a group that touches the first argument", || policy(&[&[1, 3], &[3, 5]], &[on(G0, 2)], &[ban(G1, 2)]), ask(G0, 2), p(0)),
    ("the group itself", || policy(&[&[1, 3]], &[on(G0, 2)], &[ban(G0, 2)]), ask(G0, 2), u(0, 0)),
    ("a group in a wider rule", || policy(&[&[1, 3], &[1, 3, 5]], &[on(G1, 2)], &[ban(G0, 2)]), ask(1, 2), u(0, 0)),
    // What is known of a group in one field says nothing of another field.
    ("a group twice, another source", || policy(&[&[1, 3]], &[on(2, 1)], &[ban(G0, G0)]), ask(2, 1), p(0)),
    ("a group twice, another destination", || policy(&[&[1, 3]], &[on(1, 2)], &[ban(G0, G0)]), ask(1, 2), p(0)),
    ("a group twice", || policy(&[&[1, 3]], &[on(1, 3)], &[ban(G0, G0)]), ask(1, 3), u(0, 0)),
    ("not the source, then the destination", || policy(&[&[2, 3]], &[on(1, 2)], &[ban(G0, 2), ban(1, G0)]), ASKED, u(0, 1)),
    ("not the destination, then the source", || policy(&[&[1, 3]], &[on(1, 2)], &[ban(1, G0), ban(G0, 2)]), ASKED, u(0, 1)),
    // Each predicate is true outside of its arguments, whatever the rules.
    ("a separation of others", || policy(&[], &[on(1, 2), other(9, 3), other(9, 4)], &[separation(3, 4)]), ASKED, p(0)),
    ("a separation of another first", || policy(&[], &[on(1, 2), other(9, 3), other(9, 2)], &[separation(3, 2)]), ASKED, p(0)),
    ("a separation of another second", || policy(&[], &[on(1, 2), other(9, 1), other(9, 4)], &[separation(1, 4)]), ASKED, p(0)),
    ("a separation, and the shared type asks", || policy(&[&[20, 21]], &[on(20, 2), other(G0, 1)], &[separation(1, 2)]), ask(20, 2), p(0)),
    ("a roster of another first", || policy(&[], &[on(1, 2), other(9, 2)], &[roster(3, 2, &[1])]), ASKED, p(0)),
    ("a roster of another second", || policy(&[], &[on(1, 2), other(9, 4)], &[roster(1, 4, &[1])]), ASKED, p(0)),
    ("a companion of another first", || policy(&[], &[on(1, 2)], &[companion(3, 2)]), ASKED, p(0)),
    ("a companion of another second", || policy(&[], &[on(1, 2)], &[companion(1, 4)]), ASKED, p(0)),
];

pub fn run(pair: &Pair, case: u64) -> Outcome {
    run_row(pair, ROWS[case as usize])
}
