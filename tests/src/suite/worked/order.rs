//! The order rule: two policies, a query on each, and the two decisions. Within the rule's terms the second is never lower;
//! without one of its terms it can be.

use super::small::*;
use crate::compare::{Outcome, Pair};
use crate::sample::under;
use crate::subject::Subject;
use mungaite::Kind::{NotPermitted, Permitted, UnKnown};
use mungaite::{Kind, Query, Refusal};

type Asked = (fn() -> Vec<u8>, Query);
type Row = (&'static str, Asked, Asked, (Kind, Kind));

/// How many of the rows meet the terms.
const HELD: usize = 19;

#[rustfmt::skip]
pub const ROWS: &[Row] = &[
    ("a rule added", (|| policy(&[], &[off(1, 2)], &[]), ASKED), (|| policy(&[], &[off(1, 2), on(1, 2)], &[]), ASKED),
        (NotPermitted, Permitted)),
    ("a ban added", (|| policy(&[], &[on(1, 2)], &[]), ASKED), (|| policy(&[], &[on(1, 2)], &[ban(1, 2)]), ASKED),
        (Permitted, UnKnown)),
    ("a rule added that breaks a separation", (|| policy(&[], &[on(1, 2), other(9, 1)], &[separation(1, 2)]), ASKED),
        (|| policy(&[], &[on(1, 2), other(9, 1), other(9, 2)], &[separation(1, 2)]), ASKED), (Permitted, UnKnown)),
    ("a rule added that shares a type with another",
        (|| policy(&[&[20, 21]], &[on(1, 2), other(20, 1)], &[separation(1, 2)]), ASKED),
        (|| policy(&[&[20, 21]], &[on(1, 2), other(20, 1), other(G0, 2)], &[separation(1, 2)]), ASKED),
        (Permitted, UnKnown)),
    ("a rule added that breaks a roster", (|| policy(&[], &[on(1, 2)], &[roster(1, 2, &[1])]), ASKED),
        (|| policy(&[], &[other(9, 2), on(1, 2)], &[roster(1, 2, &[1])]), ASKED), (Permitted, UnKnown)),
    ("a companion added", (|| policy(&[], &[on(1, 2)], &[]), ASKED),
        (|| policy(&[], &[on(1, 2)], &[companion(1, 2)]), ASKED), (Permitted, UnKnown)),
    ("records at other numbers", (|| policy(&[], &[off(1, 2), on(1, 2)], &[ban(3, 4), ban(1, 2)]), ASKED),
        (|| policy(&[], &[on(1, 2), off(1, 2)], &[ban(1, 2), ban(3, 4)]), ASKED), (UnKnown, UnKnown)),
    ("of equal records one", (|| policy(&[], &[on(1, 2), on(1, 2)], &[ban(1, 2), ban(1, 2)]), ASKED),
        (|| policy(&[], &[on(1, 2)], &[ban(1, 2)]), ASKED), (UnKnown, UnKnown)),
    ("a companion, and the same rules", (|| policy(&[], &[on(1, 2), other(2, 1)], &[companion(1, 2)]), ASKED),
        (|| policy(&[], &[other(2, 1), on(1, 2), on(1, 2)], &[companion(1, 2)]), ASKED), (Permitted, Permitted)),
    ("a query within", (|| policy(&[&[1, 3]], &[on(G0, 2)], &[ban(1, 2)]), ask(G0, 2)),
        (|| policy(&[&[1, 3]], &[on(G0, 2)], &[ban(1, 2)]), ask(1, 2)), (Permitted, UnKnown)),
    ("a query within, by a group of its own policy", (|| policy(&[&[1, 3]], &[on(G0, 2)], &[]), ask(G0, 2)),
        (|| policy(&[&[1, 3], &[3]], &[on(G0, 2)], &[]), ask(G1, 2)), (Permitted, Permitted)),
    ("a switch turned on", (|| policy(&[], &[waits(0, 1, 2)], &[]), ASKED),
        (|| policy(&[], &[waits(0, 1, 2)], &[]), under(1, ASKED)), (NotPermitted, Permitted)),
    ("a switch turned on beside another", (|| policy(&[], &[waits(0, 1, 2), waits(1, 1, 2)], &[]), under(1, ASKED)),
        (|| policy(&[], &[waits(1, 1, 2), waits(0, 1, 2)], &[]), under(3, ASKED)), (Permitted, Permitted)),
    ("a switch turned on that breaks a separation",
        (|| policy(&[], &[on(1, 2), waits(0, 9, 1), other(9, 2)], &[separation(1, 2)]), ASKED),
        (|| policy(&[], &[on(1, 2), waits(0, 9, 1), other(9, 2)], &[separation(1, 2)]), under(1, ASKED)),
        (Permitted, UnKnown)),
    ("a switch turned on that breaks a roster",
        (|| policy(&[], &[on(1, 2), waits(0, 9, 2)], &[roster(1, 2, &[1])]), ASKED),
        (|| policy(&[], &[on(1, 2), waits(0, 9, 2)], &[roster(1, 2, &[1])]), under(1, ASKED)),
        (Permitted, UnKnown)),
    ("a rule added and its switch turned on", (|| policy(&[], &[], &[ban(1, 2)]), ASKED),
        (|| policy(&[], &[waits(31, 1, 2)], &[ban(1, 2)]), under(0x8000_0000, ASKED)), (NotPermitted, UnKnown)),
    ("a companion added and a switch turned on", (|| policy(&[], &[on(1, 2), waits(0, 1, 2)], &[]), ASKED),
        (|| policy(&[], &[on(1, 2), waits(0, 1, 2)], &[companion(1, 2)]), under(1, ASKED)), (Permitted, UnKnown)),
    ("a companion that waits, and equal words without it",
        (|| policy(&[], &[on(1, 2), waits(0, 2, 1)], &[companion(1, 2)]), under(2, ASKED)),
        (|| policy(&[], &[waits(0, 2, 1), on(1, 2)], &[companion(1, 2)]), under(2, ASKED)), (UnKnown, UnKnown)),
    ("a companion that waits, and equal words with it",
        (|| policy(&[], &[on(1, 2), waits(0, 2, 1)], &[companion(1, 2)]), under(1, ASKED)),
        (|| policy(&[], &[waits(0, 2, 1), on(1, 2)], &[companion(1, 2)]), under(1, ASKED)), (Permitted, Permitted)),
    // Without one of the terms.
    ("a switch turned off", (|| policy(&[], &[waits(0, 1, 2)], &[]), under(1, ASKED)),
        (|| policy(&[], &[waits(0, 1, 2)], &[]), under(0xFFFF_FFFE, ASKED)), (Permitted, NotPermitted)),
    ("a switch turned off that broke a separation",
        (|| policy(&[], &[on(1, 2), waits(0, 9, 1), other(9, 2)], &[separation(1, 2)]), under(1, ASKED)),
        (|| policy(&[], &[on(1, 2), waits(0, 9, 1), other(9, 2)], &[separation(1, 2)]), ASKED),
        (UnKnown, Permitted)),
    ("a switch turned off that broke a roster",
        (|| policy(&[], &[on(1, 2), waits(0, 9, 2)], &[roster(1, 2, &[1])]), under(1, ASKED)),
        (|| policy(&[], &[on(1, 2), waits(0, 9, 2)], &[roster(1, 2, &[1])]), under(2, ASKED)),
        (UnKnown, Permitted)),
    ("a companion, the same rules, and its switch turned on",
        (|| policy(&[], &[on(1, 2), waits(0, 2, 1)], &[companion(1, 2)]), ASKED),
        (|| policy(&[], &[on(1, 2), waits(0, 2, 1)], &[companion(1, 2)]), under(1, ASKED)), (UnKnown, Permitted)),
    ("a companion, its switch on in both, and a rule that waits for it added",
        (|| policy(&[], &[on(1, 2)], &[companion(1, 2)]), under(1, ASKED)),
        (|| policy(&[], &[on(1, 2), waits(0, 2, 1)], &[companion(1, 2)]), under(1, ASKED)), (UnKnown, Permitted)),
    ("a rule left out", (|| policy(&[], &[on(1, 2)], &[]), ASKED), (|| policy(&[], &[], &[]), ASKED),
        (Permitted, NotPermitted)),
    ("a constraint left out", (|| policy(&[], &[on(1, 2)], &[ban(1, 2)]), ASKED),
        (|| policy(&[], &[on(1, 2)], &[]), ASKED), (UnKnown, Permitted)),
    ("a companion, and a rule added", (|| policy(&[], &[on(1, 2)], &[companion(1, 2)]), ASKED),
        (|| policy(&[], &[on(1, 2), other(2, 1)], &[companion(1, 2)]), ASKED), (UnKnown, Permitted)),
    ("a group under another number", (|| policy(&[&[1]], &[on(1, 2)], &[ban(G0, 2)]), ASKED),
        (|| policy(&[&[3], &[1]], &[on(1, 2)], &[ban(G0, 2)]), ASKED), (UnKnown, Permitted)),
    ("a query around", (|| policy(&[&[1, 3]], &[on(G0, 2)], &[ban(1, 2)]), ask(1, 2)),
        (|| policy(&[&[1, 3]], &[on(G0, 2)], &[ban(1, 2)]), ask(G0, 2)), (UnKnown, Permitted)),
];

pub fn run(pair: &Pair, case: u64) -> Outcome {
    let (what, first, second, expected) = ROWS[case as usize];
    if (expected.0 <= expected.1) != ((case as usize) < HELD) {
        return Err(format!("{what}: the row is on the wrong side of the terms"));
    }
    let kind = |subject: &dyn Subject, (image, query): Asked| -> Result<Kind, Refusal> {
        subject.decide(&image(), query).map(|decision| decision.kind())
    };
    super::both(pair, what, (Ok(expected.0), Ok(expected.1)), |subject| (kind(subject, first), kind(subject, second)))
}
