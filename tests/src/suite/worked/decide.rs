//! The sample sheet's queries.

use super::small::{n, p, u, NO_RULES};
use super::{both, no};
use crate::compare::{Outcome, Pair};
use crate::sample::{query, EMPTY, G0, SAMPLE};
use crate::subject::Subject;
use mungaite::{Decision, Query, Refusal};

type Row = (&'static [u8], &'static [&'static [u8]], Query, Result<Decision, Refusal>);

/// Allow 10 to 30, class 5, action 3, on.
pub const ALLOW_10_30: &[u8] = &[11, 2, 0, 10, 0, 30, 0, 5, 0, 3, 1];
/// Allow 14 to g0, class 7, action 7, on.
pub const ALLOW_14_G0: &[u8] = &[11, 2, 0, 14, 0x80, 0, 0, 7, 0, 7, 1];
/// Allow g0 to 20, class 7, action 7, on.
const ALLOW_G0_20: &[u8] = &[11, 2, 0x80, 0, 0, 20, 0, 7, 0, 7, 1];
/// A companion constraint on class 5, action 1, arguments 10 and 21.
const COMPANION: &[u8] = &[11, 4, 0, 5, 0, 1, 0, 10, 0, 21, 3];
/// Allow 21 to 10, class 5, action 9, on.
const ALLOW_21_10: &[u8] = &[11, 2, 0, 21, 0, 10, 0, 5, 0, 9, 1];

/// An image, records added to it, a query, and what the document says.
pub const ROWS: &[Row] = &[
    (&SAMPLE, &[], query(10, 21, 5, 1), p(0)),
    (&SAMPLE, &[], query(10, G0, 5, 1), p(0)),
    (&SAMPLE, &[], query(13, 21, 5, 1), n(1, 0)),
    (&SAMPLE, &[], query(12, 20, 9, 9), p(2)),
    (&SAMPLE, &[], query(20, 30, 5, 2), p(1)),
    (&SAMPLE, &[ALLOW_10_30], query(20, 30, 5, 2), u(1, 1)),
    (&SAMPLE, &[ALLOW_G0_20], query(20, 30, 5, 2), u(1, 1)),
    (&SAMPLE, &[ALLOW_14_G0], query(10, 21, 5, 1), u(0, 0)),
    (&SAMPLE, &[ALLOW_14_G0], query(10, G0, 5, 1), p(0)),
    (&SAMPLE, &[COMPANION], query(10, 21, 5, 1), u(0, 2)),
    (&SAMPLE, &[COMPANION, ALLOW_21_10], query(10, 21, 5, 1), p(0)),
    (&EMPTY, &[], query(0, 0, 0, 0), NO_RULES),
    (&SAMPLE, &[], query(1024, 21, 5, 1), no(8, 0)),
    (&SAMPLE, &[], query(32769, 21, 5, 1), no(8, 0)),
    (&SAMPLE, &[], query(1023, 21, 5, 1), n(1, 0)),
    (&SAMPLE, &[], query(10, 1024, 5, 1), no(9, 0)),
    (&SAMPLE, &[], query(10, 32769, 5, 1), no(9, 0)),
    (&SAMPLE, &[], query(1024, 1024, 5, 1), no(8, 0)),
    (&SAMPLE, &[], query(65535, 32767, 5, 1), no(8, 0)),
    (&SAMPLE, &[], query(32767, 21, 5, 1), no(8, 0)),
    (&SAMPLE, &[], query(0, 1023, 65535, 65535), n(1, 0)),
    (&EMPTY, &[], query(0, G0, 0, 0), no(9, 0)),
    (&EMPTY, &[], query(G0, 0, 0, 0), no(8, 0)),
    (&SAMPLE, &[], query(G0, 32769, 0, 0), no(9, 0)),
    // The image's causes come first.
    (&[1, 0, 9, 0, 0, 0, 0, 0], &[], query(1024, 1024, 5, 1), no(1, 0)),
    (&[2, 0, 9, 0, 0, 0, 0, 0, 0], &[], query(1024, 1024, 5, 1), no(2, 0)),
    (&[1, 0, 8, 0, 0, 0, 0, 0, 0], &[], query(1024, 1024, 5, 1), no(3, 0)),
    (&[1, 0, 9, 1, 1, 0, 0, 0, 0], &[], query(1024, 1024, 5, 1), no(4, 3)),
    (&[1, 0, 9, 0, 1, 0, 0, 0, 0], &[], query(1024, 1024, 5, 1), no(5, 9)),
    (&[1, 0, 13, 0, 1, 0, 0, 0, 0, 4, 1, 4, 0], &[], query(1024, 1024, 5, 1), no(6, 11)),
    (&[1, 0, 10, 0, 0, 0, 0, 0, 0, 0], &[], query(1024, 1024, 5, 1), no(7, 9)),
];

pub fn run(pair: &Pair, case: u64) -> Outcome {
    let (image, added, query, expected) = ROWS[case as usize];
    both(pair, &format!("{query:?}"), expected, |subject| subject.decide(&grown(subject, image, added)?, query))
}

/// The image with records added, by the subject itself.
pub fn grown(subject: &dyn Subject, image: &[u8], added: &[&[u8]]) -> Result<Vec<u8>, Refusal> {
    let mut grown = image.to_vec();
    for record in added {
        grown.resize(grown.len() + record.len(), 0);
        subject.add(&mut grown, record)?;
    }
    Ok(grown)
}
