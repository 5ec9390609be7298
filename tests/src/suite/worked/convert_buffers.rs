//! Buffers of every size for the converter, and images that it refuses: a refused call leaves every byte.

use super::convert::converted;
use super::small::*;
use super::{both, check, no, twins};
use crate::compare::{Outcome, Pair};
use crate::draft::{group, Draft};
use crate::sample::{EMPTY, SAMPLE};
use crate::suite::texts::room;
use mungaite::Refusal;

/// An old image, and the new one.
type Row = (fn() -> Vec<u8>, fn() -> Vec<u8>);

/// How many sizes of buffers there are for each.
pub const SIZES: u64 = 120;

/// Images of 32, 1,044, 80, 9 and 24 bytes whose new ones have 28, 24, 80, 9 and 20.
pub const ROWS: &[Row] = &[
    (|| policy(&[&[7], &[7], &[8]], &[on(G2, G1)], &[]), || policy(&[&[7], &[8]], &[on(G1, G0)], &[])),
    (alike, || policy(&[&[7]], &[on(G0, G0)], &[])),
    (|| SAMPLE.to_vec(), || SAMPLE.to_vec()),
    (|| EMPTY.to_vec(), || EMPTY.to_vec()),
    (|| policy(&[&[0], &[0]], &[on(0, G1)], &[]), || policy(&[&[0]], &[on(0, G0)], &[])),
];

/// 256 groups of 7, and allow g255 to g1.
fn alike() -> Vec<u8> {
    Draft { groups: vec![group(&[7]); 256], rules: vec![on(32768 + 255, G1)], ..Draft::default() }.image()
}

/// Case n: a buffer of n bytes for each. One that cannot hold the new image is short: 13, and no byte is written.
pub fn sizes(pair: &Pair, case: u64) -> Outcome {
    for (old, new) in ROWS {
        fits(pair, &old(), &new(), case as usize)?;
    }
    Ok(())
}

/// Case n: a buffer of 1,000 and n bytes, around the length of the second's old image.
pub fn old_sizes(pair: &Pair, case: u64) -> Outcome {
    let (old, new) = ROWS[1];
    fits(pair, &old(), &new(), 1000 + case as usize)
}

fn fits(pair: &Pair, old: &[u8], new: &[u8], length: usize) -> Outcome {
    let after = match room(length) {
        short if length < new.len() => (no(13, 0), short),
        long => (Ok(new.len()), [new, &long[new.len()..]].concat()),
    };
    both(pair, &format!("{} bytes in {length}", old.len()), after, |subject| converted(subject, old, length))
}

/// The rows of `check`: an image that the check accepts comes out as it is, and one that it refuses is refused alike.
pub fn checked(pair: &Pair, case: u64) -> Outcome {
    let (what, image, expected) = check::ROWS[case as usize];
    as_checked(pair, what, &image(), expected)
}

/// The rows of `twins`: the same, but that twins are no cause.
pub fn with_twins(pair: &Pair, case: u64) -> Outcome {
    let (what, image, expected) = twins::ROWS[case as usize];
    match expected {
        Err(Refusal { number: 19, .. }) => {
            let said = |subject: &dyn crate::subject::Subject| converted(subject, &image(), image().len()).0.is_ok();
            both(pair, what, true, said)
        }
        _ => as_checked(pair, what, &image(), expected),
    }
}

/// A refusal comes before a short buffer, and leaves a buffer of any length as it was.
fn as_checked(pair: &Pair, what: &str, image: &[u8], expected: Result<(), Refusal>) -> Outcome {
    match expected {
        Ok(()) => fits(pair, image, image, image.len() + 7),
        Err(refusal) => [0, 8, 9, 30, image.len()].into_iter().try_for_each(|length| {
            both(pair, what, (Err(refusal), room(length)), |subject| converted(subject, image, length))
        }),
    }
}
