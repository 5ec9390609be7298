//! The program's whole output.

use super::both;
use crate::compare::{Outcome, Pair};
use crate::draft::{allow, constraint, group, Draft};
use crate::sample::{query, EMPTY, QUERIES, SAMPLE};
use mungaite::Query;

type Row = (&'static str, fn() -> Vec<u8>, &'static str);

#[rustfmt::skip]
pub const ROWS: &[Row] = &[
    ("the document's three queries", || input(&[QUERIES[0], QUERIES[2], QUERIES[3]], &[]), "P 0\nN 1 0\nP 2\n"),
    ("an image alone", || SAMPLE.to_vec(), ""),
    ("the empty policy alone", || EMPTY.to_vec(), ""),
    ("no input", Vec::new, "R 1 0\n"),
    ("version 2", || [&[2], &SAMPLE[1..]].concat(), "R 2 0\n"),
    ("length field beyond the input", || SAMPLE[..79].to_vec(), "R 3 0\n"),
    ("a refused image and queries", || [&[1, 0, 9, 4, 0, 0, 0, 0, 0], &SAMPLE[..8]].concat(), "R 4 3\n"),
    ("a record past the image", || [&[1, 0, 9, 0, 1, 0, 0, 0, 0], &SAMPLE[9..]].concat(), "R 5 9\n"),
    ("refused queries among others", || input(&[QUERIES[5], QUERIES[0], QUERIES[6]], &[]), "R 8 0\nP 0\nR 9 0\n"),
    ("11 bytes left", || input(&[QUERIES[0]], &[0; 11]), "P 0\nR 15 0\n"),
    ("1 byte left", || input(&[], &[9]), "R 15 0\n"),
    ("8 bytes, a query without its word", || input(&[], &[0, 10, 0, 21, 0, 5, 0, 1]), "R 15 0\n"),
    ("two queries without their words", || input(&[], &[0, 10, 0, 21, 0, 5, 0, 1, 0, 10, 0, 21, 0, 5, 0, 1]),
        "P 0\nR 15 0\n"),
    ("an UnKnown", unknown, "U 1 1\n"),
    // The word comes last, its highest byte first. The rule is 1 to 2, class 5, action 1, and waits for a switch.
    ("switch 0", || waiting(0, &[0, 1, 0, 2, 0, 5, 0, 1, 0, 0, 0, 1]), "P 0\n"),
    ("switch 0 of the other end", || waiting(0, &[0, 1, 0, 2, 0, 5, 0, 1, 1, 0, 0, 0]), "N 0 0\n"),
    ("switch 8", || waiting(8, &[0, 1, 0, 2, 0, 5, 0, 1, 0, 0, 1, 0]), "P 0\n"),
    ("switch 8 of the other end", || waiting(8, &[0, 1, 0, 2, 0, 5, 0, 1, 0, 1, 0, 0]), "N 0 0\n"),
    ("switch 31", || waiting(31, &[0, 1, 0, 2, 0, 5, 0, 1, 128, 0, 0, 0]), "P 0\n"),
    ("switch 31 of the other end", || waiting(31, &[0, 1, 0, 2, 0, 5, 0, 1, 0, 0, 0, 128]), "N 0 0\n"),
    ("the word first", || waiting(0, &[0, 0, 0, 1, 0, 1, 0, 2, 0, 5, 0, 1]), "N 1 0\n"),
    ("two words", || waiting(0, &[0, 1, 0, 2, 0, 5, 0, 1, 0, 0, 0, 0, 0, 1, 0, 2, 0, 5, 0, 1, 0, 0, 0, 1]),
        "N 0 0\nP 0\n"),
    ("a query, and one without its word's last byte",
        || waiting(0, &[0, 1, 0, 2, 0, 5, 0, 1, 0, 0, 0, 1, 0, 1, 0, 2, 0, 5, 0, 1, 0, 0, 0]), "P 0\nR 15 0\n"),
    ("the last field of the longest image, 1024", || longest_with(55_559, &[4, 0]), "R 6 55559\n"),
    ("the last record of the longest image, of another kind", || longest_with(55_519, &[1]), "R 5 55518\n"),
    ("a basic type at place 9,999 that does not rise", || longest_with(9_999, &[0, 0]), "R 6 9999\n"),
    ("a basic type at place 10,001 that does not rise", || longest_with(10_001, &[0, 0]), "R 6 10001\n"),
];

/// How many queries the program is given at once: more bytes than a pipe or a buffer holds.
const MANY: usize = 30_000;

pub fn run(pair: &Pair, case: u64) -> Outcome {
    let (what, input, expected) = ROWS[case as usize];
    both(pair, what, expected.to_string(), |subject| subject.permit(&input()))
}

/// Case n: n bytes left behind two queries.
pub fn left(pair: &Pair, case: u64) -> Outcome {
    let bytes = [0, 10, 0, 21, 0, 5, 0, 1, 0, 0, 0];
    let expected = if case == 0 { "P 0\nP 2\n" } else { "P 0\nP 2\nR 15 0\n" };
    let input = input(&[QUERIES[0], QUERIES[3]], &bytes[..case as usize]);
    both(pair, &format!("{case} bytes left"), expected.to_string(), |subject| subject.permit(&input))
}

/// Standard input may hold any number of queries.
pub fn many(pair: &Pair, _: u64) -> Outcome {
    let asked = [query(10, 21, 5, 1), query(13, 21, 5, 1), query(12, 20, 9, 9), query(1024, 0, 0, 0)];
    let queries: Vec<Query> = asked.into_iter().cycle().take(MANY).collect();
    let output = pair.engine.permit(&input(&queries, &[]));
    let expected = "P 0\nN 1 0\nP 2\nR 8 0\n".repeat(MANY / asked.len());
    match output == expected {
        true => Ok(()),
        false => Err(format!("{} bytes of output, expected {}", output.len(), expected.len())),
    }
}

/// The sample, queries, and bytes left.
fn input(queries: &[Query], left: &[u8]) -> Vec<u8> {
    let queries: Vec<u8> = queries.iter().flat_map(|query| query.to_bytes()).collect();
    [&SAMPLE[..], &queries, left].concat()
}

/// The longest image, 55,561 bytes, with these bytes at a place: 256 groups of 130 bytes from 9 on, each of 64 types
/// that start at its number, 1,024 rules of 11, and 256 constraints of 43, the last at 55,518.
pub fn longest_with(place: usize, bytes: &[u8]) -> Vec<u8> {
    let draft = Draft {
        groups: (0..256).map(|n| group(&(n..n + 64).collect::<Vec<u16>>())).collect(),
        rules: vec![allow(1, 2, 8, 9, 1); 1024],
        constraints: vec![constraint(8, 7, 1, 2, 2, &[3; 16]); 256],
    };
    let mut image = draft.image();
    image[place..place + bytes.len()].copy_from_slice(bytes);
    image
}

/// A policy of allow 1 to 2, class 5, action 1, which waits for switch k, and bytes behind it.
fn waiting(k: u8, queries: &[u8]) -> Vec<u8> {
    [&[1, 0, 20, 0, 0, 0, 1, 0, 0, 11, 2, 0, 1, 0, 2, 0, 5, 0, 1, 2 + k], queries].concat()
}

/// The sample with allow 10 to 30, class 5, action 3, on, as its rule 4, and the query 20, 30, 5, 2.
fn unknown() -> Vec<u8> {
    let rule = [11, 2, 0, 10, 0, 30, 0, 5, 0, 3, 1];
    let query = [0, 20, 0, 30, 0, 5, 0, 2, 0, 0, 0, 0];
    let mut input = [&SAMPLE[..56], &rule, &SAMPLE[56..], &query].concat();
    (input[2], input[6]) = (91, 5);
    input
}
