//! Which rules cover a query, and which of them is named.

use super::small::*;
use crate::compare::{Outcome, Pair};
use crate::draft::{allow, transition};
use crate::sample::query;

#[rustfmt::skip]
pub const ROWS: &[Row] = &[
    ("no rule", || policy(&[], &[], &[]), ASKED, NO_RULES),
    ("one rule", || policy(&[], &[on(1, 2)], &[]), ASKED, p(0)),
    ("two rules cover", || policy(&[], &[on(1, 2), on(1, 2)], &[]), ASKED, p(0)),
    ("the last rule alone covers", || policy(&[], &[on(3, 2), on(1, 3), on(1, 2)], &[]), ASKED, p(2)),
    ("the first rule is off", || policy(&[], &[off(1, 2), on(1, 2)], &[]), ASKED, p(1)),
    ("the only rule is off", || policy(&[], &[off(1, 2)], &[]), ASKED, n(0, 0)),
    ("another source", || policy(&[], &[on(3, 2)], &[]), ASKED, n(1, 0)),
    ("another destination", || policy(&[], &[on(1, 3)], &[]), ASKED, n(2, 0)),
    ("the other way", || policy(&[], &[on(2, 1)], &[]), ASKED, n(1, 0)),
    ("another class", || policy(&[], &[allow(1, 2, 6, 1, 1)], &[]), ASKED, n(3, 0)),
    ("another action", || policy(&[], &[allow(1, 2, 5, 2, 1)], &[]), ASKED, n(4, 0)),
    ("class for action, action for class", || policy(&[], &[allow(1, 2, 1, 5, 1)], &[]), ASKED, n(3, 0)),
    ("the highest numbers", || policy(&[], &[allow(0, 1023, 65535, 65535, 1)], &[]), query(0, 1023, 65535, 65535), p(0)),
    // Numbers that agree in one byte.
    ("class 261", || policy(&[], &[allow(1, 2, 261, 1, 1)], &[]), ASKED, n(3, 0)),
    ("action 257", || policy(&[], &[allow(1, 2, 5, 257, 1)], &[]), ASKED, n(4, 0)),
    ("source 257", || policy(&[], &[on(257, 2)], &[]), ASKED, n(1, 0)),
    ("destination 258", || policy(&[], &[on(1, 258)], &[]), ASKED, n(2, 0)),
    // Within, as sets.
    ("the first member", || policy(&[&[1, 3, 5]], &[on(G0, 2)], &[]), ask(1, 2), p(0)),
    ("the last member", || policy(&[&[1, 3, 5]], &[on(G0, 2)], &[]), ask(5, 2), p(0)),
    ("between two members", || policy(&[&[1, 3, 5]], &[on(G0, 2)], &[]), ask(4, 2), n(1, 0)),
    ("before the first member", || policy(&[&[1, 3, 5]], &[on(G0, 2)], &[]), ask(0, 2), n(1, 0)),
    ("past the last member", || policy(&[&[1, 3, 5]], &[on(G0, 2)], &[]), ask(6, 2), n(1, 0)),
    ("the first member, as destination", || policy(&[&[2, 3, 5]], &[on(1, G0)], &[]), ask(1, 2), p(0)),
    ("the last member, as destination", || policy(&[&[2, 3, 5]], &[on(1, G0)], &[]), ask(1, 5), p(0)),
    ("the group itself", || policy(&[&[1, 3]], &[on(G0, 2)], &[]), ask(G0, 2), p(0)),
    ("a group within", || policy(&[&[1, 3, 5], &[1, 5]], &[on(G0, 2)], &[]), ask(G1, 2), p(0)),
    ("a group between the ends, and not within", || policy(&[&[1, 5, 9], &[1, 8]], &[on(G0, 2)], &[]), ask(G1, 2), n(1, 0)),
    ("a group that starts below", || policy(&[&[1, 5, 9], &[0, 5, 9]], &[on(2, G0)], &[]), ask(2, G1), n(2, 0)),
    ("a group around", || policy(&[&[1, 3, 5], &[1, 5]], &[on(G1, 2)], &[]), ask(G0, 2), n(1, 0)),
    ("a group for its one allowed member", || policy(&[&[1, 3]], &[on(1, 2)], &[]), ask(G0, 2), n(1, 0)),
    ("the same, as destination", || policy(&[&[2, 3]], &[on(1, 2)], &[]), ask(1, G0), n(2, 0)),
    ("a group that touches", || policy(&[&[1, 3], &[3, 5]], &[on(G0, 2)], &[]), ask(G1, 2), n(1, 0)),
    ("the same, as destination", || policy(&[&[1, 3], &[3, 5]], &[on(2, G0)], &[]), ask(2, G1), n(2, 0)),
    ("a group that two rules share", || policy(&[&[1, 3]], &[on(1, 2), on(3, 2)], &[]), ask(G0, 2), n(1, 0)),
    ("a group of one member", || policy(&[&[1]], &[on(1, 2)], &[]), ask(G0, 2), p(0)),
    ("the one member of a group", || policy(&[&[1]], &[on(G0, 2)], &[]), ask(1, 2), p(0)),
    ("a group of one other member", || policy(&[&[3]], &[on(1, 2)], &[]), ask(G0, 2), n(1, 0)),
    ("another than the one member of a group", || policy(&[&[3]], &[on(G0, 2)], &[]), ask(1, 2), n(1, 0)),
    // What is known of a group in one field says nothing of another field, and a rule nothing of the next.
    ("a group both ways, another source", || policy(&[&[1, 3]], &[on(G0, G0)], &[]), ask(2, 1), n(1, 0)),
    ("a group both ways, another destination", || policy(&[&[1, 3]], &[on(G0, G0)], &[]), ask(1, 2), n(2, 0)),
    ("a group both ways", || policy(&[&[1, 3]], &[on(G0, G0)], &[]), ask(3, 1), p(0)),
    ("not the destination, then the source", || policy(&[&[1, 3]], &[on(2, G0), on(G0, 2)], &[]), ask(1, 2), p(1)),
    ("not the source, then the destination", || policy(&[&[1, 3]], &[on(G0, 3), on(2, G0)], &[]), ask(2, 3), p(1)),
    ("another destination, then the right one", || policy(&[&[1, 3]], &[on(G0, 4), on(G0, 2)], &[]), ask(1, 2), p(1)),
    // Transitions.
    ("a transition of another class", || policy(&[], &[transition(1, 2, 9)], &[]), ASKED, p(0)),
    ("a transition, then an allow rule", || policy(&[], &[trans(1, 2), on(1, 2)], &[]), ASKED, p(0)),
    ("an allow rule off, then a transition", || policy(&[], &[off(1, 2), trans(1, 2)], &[]), ASKED, p(1)),
    ("a transition of another source", || policy(&[], &[trans(3, 2)], &[]), ASKED, n(1, 0)),
    ("a transition of another destination", || policy(&[], &[trans(1, 3)], &[]), ASKED, n(2, 0)),
    ("a transition the other way", || policy(&[], &[trans(2, 1)], &[]), ASKED, n(1, 0)),
    ("a transition for one member", || policy(&[&[2, 3]], &[trans(1, 2)], &[]), ask(1, G0), n(2, 0)),
    ("a transition to the whole group", || policy(&[&[2, 3]], &[trans(1, G0)], &[]), ask(1, G0), p(0)),
];

pub fn run(pair: &Pair, case: u64) -> Outcome {
    run_row(pair, ROWS[case as usize])
}
