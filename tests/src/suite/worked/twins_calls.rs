//! An image with twins, asked by every call: 19, before the call's own causes, and nothing is written.

use super::add::{adds, Row as Added};
use super::run::asked;
use super::small::*;
use super::{both, no};
use crate::compare::{unanswered, Outcome, Pair};
use crate::draft::Draft;
use mungaite::{Query, Section};

/// Two groups of 7, at 9 and at 13, allow g0 to g1, on, at 17, and a ban: 39 bytes.
fn twins() -> Vec<u8> {
    policy(&[&[7], &[7]], &[on(G0, G1)], &[ban(1, 2)])
}

/// Records that are there and that are not.
pub const RECORDS: &[(Section, u16)] = &[
    (Section::Groups, 0),
    (Section::Groups, 1),
    (Section::Groups, 2),
    (Section::Rules, 0),
    (Section::Rules, 1),
    (Section::Constraints, 0),
    (Section::Constraints, 1),
    (Section::Constraints, 65535),
];

pub fn record(pair: &Pair, case: u64) -> Outcome {
    let (section, n) = RECORDS[case as usize];
    both(pair, &format!("{section:?} {n}"), no(19, 13), |subject| subject.record(&twins(), section, n))
}

/// Queries that the policy would decide, and some that 8 or 9 would refuse.
pub const QUERIES: &[Query] =
    &[ask(7, 7), ask(G0, G1), ask(G1, G0), ask(1, 2), ask(1024, 7), ask(7, 1024), ask(G2, G2), ask(65535, 65535)];

pub fn decide(pair: &Pair, case: u64) -> Outcome {
    let query = QUERIES[case as usize];
    both(pair, &format!("{query:?}"), no(19, 13), |subject| subject.decide(&twins(), query))
}

/// How many rows, and how many slots.
pub const RUNS: &[(usize, usize)] = &[(1, 1), (64, 64), (0, 0), (0, 3), (65, 65), (65, 1), (2, 1), (2, 3), (1, 0)];

pub fn run(pair: &Pair, case: u64) -> Outcome {
    let (rows, slots) = RUNS[case as usize];
    for query in [ask(7, 7), ask(1024, 7)] {
        let untouched = (no(19, 13), unanswered(slots));
        let what = format!("{rows} rows, {slots} slots");
        both(pair, &what, untouched, |subject| asked(subject, &twins(), &vec![query; rows], slots))?;
    }
    Ok(())
}

/// What is added, be it right or wrong, with room and without.
#[rustfmt::skip]
pub const ADDED: &[Added] = &[
    ("a rule", || room(20), &[8, 3, 0, 1, 0, 2, 0, 3], no(19, 13), || room(20)),
    ("a rule, no room", || room(0), &[8, 3, 0, 1, 0, 2, 0, 3], no(19, 13), || room(0)),
    ("a group", || room(20), &[4, 1, 0, 8], no(19, 13), || room(20)),
    ("another twin", || room(20), &[4, 1, 0, 7], no(19, 13), || room(20)),
    ("another twin, no room", || room(0), &[4, 1, 0, 7], no(19, 13), || room(0)),
    ("no byte", || room(20), &[], no(19, 13), || room(20)),
    ("kind 9", || room(20), &[4, 9, 0, 8], no(19, 13), || room(20)),
    ("a bad source", || room(20), &[8, 3, 4, 0, 0, 2, 0, 3], no(19, 13), || room(20)),
    ("members that fall", || room(20), &[6, 1, 0, 8, 0, 7], no(19, 13), || room(20)),
    ("a group, where there are 256 alike", full, &[4, 1, 0, 8], no(19, 13), full),
];

pub fn add(pair: &Pair, case: u64) -> Outcome {
    adds(pair, ADDED[case as usize])
}

/// The image and so many bytes, each another than the one before.
fn room(bytes: usize) -> Vec<u8> {
    [twins(), (0..bytes).map(|n| (n * 7 + 1) as u8).collect()].concat()
}

/// 256 groups of 7, and 20 bytes.
fn full() -> Vec<u8> {
    let image = Draft { groups: vec![crate::draft::group(&[7]); 256], ..Draft::default() }.image();
    [image, vec![0x5A; 20]].concat()
}

type Printed = (&'static str, fn() -> Vec<u8>, &'static str);

/// What stands behind the image, and what is wrong with it, for the program.
pub const PRINTED: &[Printed] = &[
    ("the image alone", twins, "R 19 13\n"),
    ("a query", || [twins(), ask(7, 7).to_bytes().to_vec()].concat(), "R 19 13\n"),
    ("queries and 5 bytes", || [twins(), vec![0; 29]].concat(), "R 19 13\n"),
    ("one byte", || [twins(), vec![9]].concat(), "R 19 13\n"),
    ("the last byte cut", || twins()[..38].to_vec(), "R 3 0\n"),
    ("a byte more in the image", || with_length(40, &[0]), "R 7 39\n"),
    ("a byte more in the image, and a query", || with_length(40, &[0; 13]), "R 7 39\n"),
];

fn with_length(length: u8, behind: &[u8]) -> Vec<u8> {
    let mut image = [twins(), behind.to_vec()].concat();
    image[2] = length;
    image
}

pub fn permit(pair: &Pair, case: u64) -> Outcome {
    let (what, input, expected) = PRINTED[case as usize];
    both(pair, what, expected.to_string(), |subject| subject.permit(&input()))
}
