//! The program `convert`: the new image, or the line of a refusal.

use super::both;
use super::permit::longest_with;
use super::small::*;
use crate::compare::{Outcome, Pair};
use crate::sample::{EMPTY, SAMPLE};

type Row = (&'static str, fn() -> Vec<u8>, Result<fn() -> Vec<u8>, &'static str>);

#[rustfmt::skip]
pub const ROWS: &[Row] = &[
    ("the sample", || SAMPLE.to_vec(), Ok(|| SAMPLE.to_vec())),
    ("the empty policy", || EMPTY.to_vec(), Ok(|| EMPTY.to_vec())),
    ("twins", twins, Ok(|| policy(&[&[7], &[8]], &[on(G1, G0)], &[]))),
    ("the longest image", || longest_with(0, &[1]), Ok(|| longest_with(0, &[1]))),
    ("no input", Vec::new, Err("R 1 0\n")),
    ("one byte", || vec![1], Err("R 1 0\n")),
    ("8 bytes", || twins()[..8].to_vec(), Err("R 1 0\n")),
    ("version 2", || [&[2], &SAMPLE[1..]].concat(), Err("R 2 0\n")),
    ("the last byte cut", || twins()[..31].to_vec(), Err("R 3 0\n")),
    ("a byte more", || [twins(), vec![0]].concat(), Err("R 3 0\n")),
    ("a query behind the image", || [twins(), ask(7, 7).to_bytes().to_vec()].concat(), Err("R 3 0\n")),
    ("the image twice", || [twins(), twins()].concat(), Err("R 3 0\n")),
    ("257 groups", || vec![1, 0, 9, 1, 1, 0, 0, 0, 0], Err("R 4 3\n")),
    ("a record past the image", || vec![1, 0, 9, 0, 1, 0, 0, 0, 0], Err("R 5 9\n")),
    ("a bad source behind twins", || policy(&[&[7], &[7]], &[on(1024, 2)], &[]), Err("R 6 19\n")),
    ("a byte behind the last record", || with_length(&twins(), 33), Err("R 7 32\n")),
    ("the last field of the longest image, 1024", || longest_with(55_559, &[4, 0]), Err("R 6 55559\n")),
    // The input's length beyond what a length field can say.
    ("65,535 bytes", || with_length(&longest_with(0, &[1]), 65_535), Err("R 7 55561\n")),
    ("65,536 bytes, length field 0", || with_length(&longest_with(0, &[1]), 65_536), Err("R 3 0\n")),
    ("65,536 bytes more than the length field says", || [twins(), vec![0; 65_536]].concat(), Err("R 3 0\n")),
    ("65,536 bytes, length field 65,535", || [with_length(&EMPTY, 65_535), vec![0]].concat(), Err("R 3 0\n")),
    ("65,536 bytes, version 2", || [vec![2], vec![0; 65_535]].concat(), Err("R 2 0\n")),
    ("200,000 bytes", || [twins(), vec![7; 200_000]].concat(), Err("R 3 0\n")),
    ("200,000 bytes, version 0", || vec![0; 200_000], Err("R 2 0\n")),
];

/// Two groups of 7, one of 8, and allow g2 to g1: 32 bytes.
fn twins() -> Vec<u8> {
    policy(&[&[7], &[7], &[8]], &[on(G2, G1)], &[])
}

/// The image, filled up to a length that its length field says as far as it can.
fn with_length(image: &[u8], length: usize) -> Vec<u8> {
    let mut image = image.to_vec();
    image.resize(length, 0);
    image[1..3].copy_from_slice(&(length as u16).to_be_bytes());
    image
}

pub fn run(pair: &Pair, case: u64) -> Outcome {
    let (what, input, expected) = ROWS[case as usize];
    let expected = expected.map(|image| image()).map_err(str::to_string);
    both(pair, what, expected, |subject| subject.convert_program(&input()))
}
