//! The C function of a decision: answers as numbers. The same 0 is accepted from the check and NotPermitted from here.

use super::nearest::near;
use super::small::{ask, ban, on, policy, waits, ASKED, G0};
use crate::compare::{equal, Outcome, Pair};
use crate::sample::{query, under, EMPTY, SAMPLE};
use mungaite::raw::{mungaite_check, mungaite_decide};
use mungaite::Query;

type Row = (&'static str, fn() -> Vec<u8>, Query, u64);

#[rustfmt::skip]
pub const ROWS: &[Row] = &[
    ("no step, rule 0", || policy(&[], &[near(0)], &[]), ASKED, 0x0000_0000_0000_0000),
    ("no rules", || EMPTY.to_vec(), ASKED, 0x0000_0000_0000_FFFF),
    ("the sample's denied query", || SAMPLE.to_vec(), query(13, 21, 5, 1), 0x0000_0000_0001_0000),
    ("two steps, rule 1", || policy(&[], &[near(1), near(2)], &[]), ASKED, 0x0000_0000_0002_0001),
    ("three steps, rule 256", || behind(256, 3), ASKED, 0x0000_0000_0003_0100),
    ("four steps, rule 1,023", || behind(1023, 4), ASKED, 0x0000_0000_0004_03FF),
    ("Permitted, rule 0", || policy(&[], &[on(1, 2)], &[]), ASKED, 0x0000_0001_0000_0000),
    ("Permitted, rule 1", || policy(&[], &[near(4), on(1, 2)], &[]), ASKED, 0x0000_0001_0000_0001),
    ("UnKnown", || policy(&[], &[near(4), on(1, 2)], &[ban(1, 2)]), ASKED, 0x0000_0003_0001_0000),
    ("switch 16, off", || policy(&[], &[on(3, 2), waits(16, 1, 2)], &[]), under(0xFFFE_FFFF, ASKED),
        0x0000_0000_0001_0000),
    ("switch 16, on", || policy(&[], &[on(3, 2), waits(16, 1, 2)], &[]), under(0x0001_0000, ASKED),
        0x0000_0001_0000_0001),
    ("switch 31, on", || policy(&[], &[waits(31, 1, 2)], &[ban(1, 2)]), under(0x8000_0000, ASKED),
        0x0000_0003_0000_0000),
    ("no source", || EMPTY.to_vec(), ask(1024, 2), 0x0000_0002_0008_0000),
    ("no source, all switches", || EMPTY.to_vec(), under(0xFFFF_FFFF, ask(1024, 2)), 0x0000_0002_0008_0000),
    ("no destination", || EMPTY.to_vec(), ask(1, G0), 0x0000_0002_0009_0000),
];

pub fn run(_: &Pair, case: u64) -> Outcome {
    let (what, image, query, expected) = ROWS[case as usize];
    let (image, Query { source, destination, class, action, switches }) = (image(), query);
    let lent = || (image.as_ptr(), image.len());
    // SAFETY: the pointer and the length are those of one slice.
    let checked = unsafe { mungaite_check(lent().0, lent().1) };
    equal("check", checked, 0, || what.to_string())?;
    // SAFETY: as above.
    let decided = unsafe { mungaite_decide(source, destination, class, action, switches, lent().0, lent().1) };
    equal("decide", decided, expected, || what.to_string())
}

/// So many rules that stop at the source, and then one that stops behind so many steps.
fn behind(count: usize, steps: usize) -> Vec<u8> {
    policy(&[], &[vec![near(1); count], vec![near(steps)]].concat(), &[])
}
