//! How near a denied query came: the steps that pass, and which rule is named.

use super::no;
use super::small::*;
use crate::compare::{Outcome, Pair};
use crate::draft::{allow, transition};
use crate::sample::query;

#[rustfmt::skip]
pub const ROWS: &[Row] = &[
    // The steps of one rule: the leading passes, whatever comes behind the first failure.
    ("off", || rules(&[near(0)]), ASKED, n(0, 0)),
    ("the source alone fails", || rules(&[near(1)]), ASKED, n(1, 0)),
    ("the destination alone fails", || rules(&[near(2)]), ASKED, n(2, 0)),
    ("the class alone fails", || rules(&[near(3)]), ASKED, n(3, 0)),
    ("the action alone fails", || rules(&[near(4)]), ASKED, n(4, 0)),
    ("off, and all else fails", || rules(&[far(0)]), ASKED, n(0, 0)),
    ("all from the source on fails", || rules(&[far(1)]), ASKED, n(1, 0)),
    ("all from the destination on fails", || rules(&[far(2)]), ASKED, n(2, 0)),
    ("class and action fail", || rules(&[far(3)]), ASKED, n(3, 0)),
    ("off, and the action fails", || rules(&[allow(1, 2, 5, 2, 0)]), ASKED, n(0, 0)),
    ("source and action pass", || rules(&[allow(1, 3, 6, 1, 1)]), ASKED, n(2, 0)),
    ("destination and class pass", || rules(&[allow(3, 2, 5, 2, 1)]), ASKED, n(1, 0)),
    ("the highest class alone fails", || rules(&[allow(1, 2, 65535, 1, 1)]), query(1, 2, 65534, 1), n(3, 0)),
    ("the highest action alone fails", || rules(&[allow(1, 2, 5, 65535, 1)]), query(1, 2, 5, 65534), n(4, 0)),
    // No rules, and rules that are all off.
    ("no rules, a group and a ban", || policy(&[&[1, 2]], &[], &[ban(1, 2)]), ask(G0, G0), NO_RULES),
    ("two rules off", || rules(&[near(0), near(0)]), ASKED, n(0, 0)),
    ("two rules off, the first far", || rules(&[far(0), near(0)]), ASKED, n(0, 0)),
    ("a rule off, then one on", || rules(&[near(0), far(1)]), ASKED, n(1, 1)),
    ("a rule on, then one off", || rules(&[far(1), near(0)]), ASKED, n(1, 0)),
    ("a rule on between two off", || rules(&[near(0), near(2), near(0)]), ASKED, n(2, 1)),
    ("a rule off that covers but for that, then a far one", || rules(&[near(0), near(1), near(0)]), ASKED, n(1, 1)),
    // Of equal steps the lowest rule.
    ("equal at the source", || rules(&[near(1), near(1)]), ASKED, n(1, 0)),
    ("equal at the destination", || rules(&[near(2), far(2)]), ASKED, n(2, 0)),
    ("equal at the destination, the second passes more behind", || rules(&[far(2), near(2)]), ASKED, n(2, 0)),
    ("equal at the class", || rules(&[near(3), near(3)]), ASKED, n(3, 0)),
    ("equal at the action, three", || rules(&[near(4), near(4), near(4)]), ASKED, n(4, 0)),
    ("equal behind a farther rule", || rules(&[near(1), near(3), near(3)]), ASKED, n(3, 1)),
    ("equal, with others between", || rules(&[near(0), near(2), near(1), near(2)]), ASKED, n(2, 1)),
    ("4 behind 3, and 4 again", || rules(&[near(3), near(4), near(4)]), ASKED, n(4, 1)),
    // More steps win, at any number.
    ("2 behind 1", || rules(&[near(1), near(2)]), ASKED, n(2, 1)),
    ("2 behind 1, which passes more behind", || rules(&[near(1), far(2)]), ASKED, n(2, 1)),
    ("3 behind 2, which passes more behind", || rules(&[near(2), far(3)]), ASKED, n(3, 1)),
    ("4 behind 3", || rules(&[near(3), near(4)]), ASKED, n(4, 1)),
    ("3 behind 4", || rules(&[near(4), near(3)]), ASKED, n(4, 0)),
    ("the last of three", || rules(&[near(1), near(1), near(2)]), ASKED, n(2, 2)),
    ("rising", || rules(&[near(0), near(1), near(2), near(3), near(4)]), ASKED, n(4, 4)),
    ("falling", || rules(&[near(4), near(3), near(2), near(1), near(0)]), ASKED, n(4, 0)),
    ("up, down and up", || rules(&[near(2), near(3), near(1), near(2)]), ASKED, n(3, 1)),
    // A transition passes the first step, and stops at its source or its destination whatever its class.
    ("a transition of other types", || rules(&[trans(3, 4)]), ASKED, n(1, 0)),
    ("a transition from elsewhere", || rules(&[trans(3, 2)]), ASKED, n(1, 0)),
    ("a transition from elsewhere, of another class", || rules(&[transition(3, 2, 9)]), ASKED, n(1, 0)),
    ("a transition elsewhere", || rules(&[trans(1, 3)]), ASKED, n(2, 0)),
    ("a transition elsewhere, of another class", || rules(&[transition(1, 3, 9)]), ASKED, n(2, 0)),
    ("a transition elsewhere, class and action 9", || rules(&[transition(1, 3, 9)]), query(1, 2, 9, 9), n(2, 0)),
    ("a rule off, then a transition", || rules(&[near(0), trans(3, 4)]), ASKED, n(1, 1)),
    ("a transition, then a rule off", || rules(&[trans(3, 4), near(0)]), ASKED, n(1, 0)),
    ("an allow rule, then an equal transition", || rules(&[near(1), trans(3, 2)]), ASKED, n(1, 0)),
    ("a transition, then an equal allow rule", || rules(&[trans(1, 3), near(2)]), ASKED, n(2, 0)),
    ("an allow rule, then a transition at the destination", || rules(&[near(2), trans(1, 3)]), ASKED, n(2, 0)),
    ("two transitions, the second of the class", || rules(&[transition(1, 3, 9), trans(1, 3)]), ASKED, n(2, 0)),
    ("a nearer transition", || rules(&[near(1), transition(1, 3, 9)]), ASKED, n(2, 1)),
    ("a nearer allow rule", || rules(&[trans(1, 3), near(3)]), ASKED, n(3, 1)),
    ("a transition covers by its types alone", || rules(&[near(4), transition(1, 2, 9)]), ASKED, p(1)),
    // Within, as sets.
    ("a group, and its one allowed member", || policy(&[&[1, 3]], &[on(1, 2)], &[]), ask(G0, 2), n(1, 0)),
    ("a group that touches", || policy(&[&[1, 3], &[3, 5]], &[on(G0, 2)], &[]), ask(G1, 2), n(1, 0)),
    ("a group within", || policy(&[&[1, 3, 5], &[1, 5]], &[on(G0, 2)], &[]), ask(G1, 4), n(2, 0)),
    ("a group around", || policy(&[&[1, 3, 5], &[1, 5]], &[on(G1, 2)], &[]), ask(G0, 4), n(1, 0)),
    ("a member", || policy(&[&[1, 3]], &[allow(G0, 2, 6, 1, 1)], &[]), ask(3, 2), n(3, 0)),
    ("to a group, and its one allowed member", || policy(&[&[2, 3]], &[on(1, 2)], &[]), ask(1, G0), n(2, 0)),
    ("to a group within", || policy(&[&[2, 3, 4], &[2, 4]], &[allow(1, G0, 5, 2, 1)], &[]), ask(1, G1), n(4, 0)),
    ("to a group around", || policy(&[&[2, 3, 4], &[2, 4]], &[allow(1, G1, 5, 2, 1)], &[]), ask(1, G0), n(2, 0)),
    ("to a member, another class", || policy(&[&[2, 3]], &[allow(1, G0, 6, 1, 1)], &[]), ask(1, 3), n(3, 0)),
    ("for a part, then for the whole", || policy(&[&[1, 3]], &[on(1, 2), on(G0, 4)], &[]), ask(G0, 2), n(2, 1)),
    ("a transition for a part", || policy(&[&[1, 3]], &[trans(1, 2), trans(G0, 4)], &[]), ask(G0, 2), n(2, 1)),
    // What is covered, what constraints say and what is refused stay as they were.
    ("covered behind a near rule", || rules(&[near(4), on(1, 2), near(4)]), ASKED, p(1)),
    ("covered and banned", || policy(&[], &[near(4), on(1, 2)], &[ban(1, 2)]), ASKED, u(1, 0)),
    ("denied and banned", || policy(&[], &[near(1), near(4)], &[ban(1, 2)]), ASKED, n(4, 1)),
    ("no source", || rules(&[near(4)]), ask(1024, 2), no(8, 0)),
    ("no destination", || rules(&[near(4)]), ask(1, G0), no(9, 0)),
    ("no source, and no rules", || rules(&[]), ask(G0, 2), no(8, 0)),
    // 1,024 rules.
    ("all off", || rules(&vec![near(0); 1024]), ASKED, n(0, 0)),
    ("all equal", || rules(&vec![near(4); 1024]), ASKED, n(4, 0)),
    ("all off but a transition, the last", || with(1023, near(0), trans(3, 4)), ASKED, n(1, 1023)),
    ("the last is the nearest, at the action", || with(1023, near(3), near(4)), ASKED, n(4, 1023)),
    ("the last is a nearer transition", || with(1023, near(1), trans(1, 3)), ASKED, n(2, 1023)),
    ("the last is the farthest", || with(1023, near(2), near(1)), ASKED, n(2, 0)),
];

/// Numbers at which a byte, a word or the section ends.
pub const PLACES: &[usize] = &[0, 1, 7, 8, 15, 16, 31, 32, 63, 64, 65, 127, 128, 255, 256, 257, 511, 512, 1022, 1023];

pub fn run(pair: &Pair, case: u64) -> Outcome {
    run_row(pair, ROWS[case as usize])
}

/// Of 1,024 rules one is nearer than the others, and the last again is as near.
pub fn places(pair: &Pair, case: u64) -> Outcome {
    let place = PLACES[case as usize];
    let mut records = vec![near(2); 1024];
    (records[place], records[1023]) = (near(3), near(3));
    let image = rules(&records);
    super::both(pair, &format!("rule {place}"), n(3, place as u16), |subject| subject.decide(&image, ASKED))
}

fn rules(records: &[Vec<u8>]) -> Vec<u8> {
    policy(&[], records, &[])
}

/// 1,024 rules, of which one is another.
fn with(place: usize, rule: Vec<u8>, another: Vec<u8>) -> Vec<u8> {
    let mut records = vec![rule; 1024];
    records[place] = another;
    rules(&records)
}

/// An allow rule of which `ASKED` fails one step only, behind so many that pass.
pub fn near(steps: usize) -> Vec<u8> {
    match steps {
        0 => off(1, 2),
        1 => on(3, 2),
        2 => on(1, 3),
        3 => allow(1, 2, 6, 1, 1),
        _ => allow(1, 2, 5, 2, 1),
    }
}

/// An allow rule of which `ASKED` passes so many steps and fails all that follow.
fn far(steps: usize) -> Vec<u8> {
    match steps {
        0 => allow(3, 4, 6, 2, 0),
        1 => allow(3, 4, 6, 2, 1),
        2 => allow(1, 4, 6, 2, 1),
        _ => allow(1, 2, 6, 2, 1),
    }
}
