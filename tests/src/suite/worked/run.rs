//! Runs on the sample, and what refuses them.

use super::decide::{grown, ALLOW_10_30, ALLOW_14_G0};
use super::small::{n, p, u, NO_RULES};
use super::{both, no};
use crate::compare::{unanswered, Outcome, Pair};
use crate::sample::{query, EMPTY, G0, SAMPLE};
use crate::subject::{Answer, Subject};
use mungaite::{Query, Refusal, Run};

type Added = &'static [&'static [u8]];
type Row = (&'static str, &'static [u8], Added, fn() -> Vec<Query>, Result<Run, Refusal>, fn() -> Vec<Answer>);

// Queries, by what each gets on the sample: Permitted with a rule, NotPermitted, a refusal.
const P0: Query = query(10, 21, 5, 1);
const P0_GROUP: Query = query(10, G0, 5, 1);
const P1: Query = query(20, 30, 5, 2);
const P2: Query = query(12, 20, 9, 9);
const NOT: Query = query(13, 21, 5, 1);
const R8: Query = query(1024, 21, 5, 1);
const R9: Query = query(10, 32769, 5, 1);

/// What `NOT` gets: rules 0 to 2 stop at the source, and rule 3 is off.
const DENIED: Answer = n(1, 0);

pub const FIT: Result<Run, Refusal> = Ok(Run::Fit);

pub const fn unfit(row: usize) -> Result<Run, Refusal> {
    Ok(Run::Unfit { row })
}

/// What is asked, an image, records added to it, the rows, what is said of them, and the answers afterwards: as many as were
/// lent.
#[rustfmt::skip]
pub const ROWS: &[Row] = &[
    ("the sample's queries", &SAMPLE, &[], || vec![P0, P0_GROUP, NOT, P2, P1], unfit(2),
        || vec![p(0), p(0), DENIED, p(2), p(1)]),
    ("all Permitted", &SAMPLE, &[], || vec![P0, P0_GROUP, P2, P1], FIT, || vec![p(0), p(0), p(2), p(1)]),
    ("the first is not", &SAMPLE, &[], || vec![NOT, P0, P2], unfit(0), || vec![DENIED, p(0), p(2)]),
    ("the last is not", &SAMPLE, &[], || vec![P0, P2, NOT], unfit(2), || vec![p(0), p(2), DENIED]),
    ("two are not", &SAMPLE, &[], || vec![P0, NOT, P2, NOT, P1], unfit(1), || vec![p(0), DENIED, p(2), DENIED, p(1)]),
    ("none is", &EMPTY, &[], || vec![query(0, 0, 0, 0), query(0, G0, 0, 0)], unfit(0), || vec![NO_RULES, no(9, 0)]),
    ("one row", &SAMPLE, &[], || vec![P2], FIT, || vec![p(2)]),
    ("one row that is not", &SAMPLE, &[], || vec![NOT], unfit(0), || vec![DENIED]),
    ("one row that is refused", &SAMPLE, &[], || vec![R8], unfit(0), || vec![no(8, 0)]),
    ("the same row again", &SAMPLE, &[], || vec![P2, P2], FIT, || vec![p(2), p(2)]),
    // UnKnown is not Permitted.
    ("an UnKnown", &SAMPLE, &[ALLOW_10_30], || vec![P0, P1, P2], unfit(1), || vec![p(0), u(1, 1), p(2)]),
    ("an UnKnown, last", &SAMPLE, &[ALLOW_10_30], || vec![P0, P1], unfit(1), || vec![p(0), u(1, 1)]),
    ("an UnKnown among others", &SAMPLE, &[ALLOW_14_G0], || vec![P0_GROUP, P0, P0_GROUP, P0], unfit(1),
        || vec![p(0), u(0, 0), p(0), u(0, 0)]),
    // A refused row is a row like any other.
    ("a refused source", &SAMPLE, &[], || vec![P0, R8, P2], unfit(1), || vec![p(0), no(8, 0), p(2)]),
    ("a refused destination", &SAMPLE, &[], || vec![P0, R9, P2], unfit(1), || vec![p(0), no(9, 0), p(2)]),
    ("a refused row first", &SAMPLE, &[], || vec![R9, P0, NOT], unfit(0), || vec![no(9, 0), p(0), DENIED]),
    ("a refused row last", &SAMPLE, &[], || vec![P0, P2, R8], unfit(2), || vec![p(0), p(2), no(8, 0)]),
    ("a refused row behind another that is not", &SAMPLE, &[], || vec![P0, NOT, R8, P2], unfit(1),
        || vec![p(0), DENIED, no(8, 0), p(2)]),
    ("all refused", &SAMPLE, &[], || vec![R8, R9, R8], unfit(0), || vec![no(8, 0), no(9, 0), no(8, 0)]),
    // 1 to 64 rows.
    ("63 rows", &SAMPLE, &[], || vec![P2; 63], FIT, || vec![p(2); 63]),
    ("64 rows", &SAMPLE, &[], || vec![P2; 64], FIT, || vec![p(2); 64]),
    ("64 rows, the last is not", &SAMPLE, &[], || [vec![P2; 63], vec![NOT]].concat(), unfit(63),
        || [vec![p(2); 63], vec![DENIED]].concat()),
    ("64 rows, the last is refused", &SAMPLE, &[], || [vec![P2; 63], vec![R9]].concat(), unfit(63),
        || [vec![p(2); 63], vec![no(9, 0)]].concat()),
    ("64 rows, the first is not", &SAMPLE, &[], || [vec![NOT], vec![P2; 63]].concat(), unfit(0),
        || [vec![DENIED], vec![p(2); 63]].concat()),
    ("65 rows", &SAMPLE, &[], || vec![P2; 65], no(16, 0), || unanswered(65)),
    ("66 rows", &SAMPLE, &[], || vec![P2; 66], no(16, 0), || unanswered(66)),
    ("no row", &SAMPLE, &[], Vec::new, no(16, 0), Vec::new),
    ("257 rows", &SAMPLE, &[], || vec![P2; 257], no(16, 0), || unanswered(257)),
    ("32,769 rows, 196,614 numbers", &SAMPLE, &[], || vec![P2; 32_769], no(16, 0), || unanswered(1)),
    ("65,537 rows", &SAMPLE, &[], || vec![P2; 65_537], no(16, 0), || unanswered(1)),
    // Then as many answers as rows.
    ("one slot too few", &SAMPLE, &[], || vec![P0, P2, P1], no(17, 0), || unanswered(2)),
    ("one slot too many", &SAMPLE, &[], || vec![P0, P2, P1], no(17, 0), || unanswered(4)),
    ("no slot", &SAMPLE, &[], || vec![P2], no(17, 0), Vec::new),
    ("two slots for one row", &SAMPLE, &[], || vec![P2], no(17, 0), || unanswered(2)),
    ("64 rows, 63 slots", &SAMPLE, &[], || vec![P2; 64], no(17, 0), || unanswered(63)),
    ("64 rows, 65 slots", &SAMPLE, &[], || vec![P2; 64], no(17, 0), || unanswered(65)),
    ("one row, 65,537 slots", &SAMPLE, &[], || vec![P2], no(17, 0), || unanswered(65_537)),
    ("a refused row and a slot too few", &SAMPLE, &[], || vec![R8, P2], no(17, 0), || unanswered(1)),
    ("no row, three slots", &SAMPLE, &[], Vec::new, no(16, 0), || unanswered(3)),
    ("65 rows, 64 slots", &SAMPLE, &[], || vec![P2; 65], no(16, 0), || unanswered(64)),
    ("65 rows, no slot", &SAMPLE, &[], || vec![P2; 65], no(16, 0), Vec::new),
    // The image's causes come first.
    ("8 bytes", &[1, 0, 9, 0, 0, 0, 0, 0], &[], || vec![P2], no(1, 0), || unanswered(1)),
    ("8 bytes, no row", &[1, 0, 9, 0, 0, 0, 0, 0], &[], Vec::new, no(1, 0), Vec::new),
    ("version 2, a slot too many", &[2, 0, 9, 0, 0, 0, 0, 0, 0], &[], || vec![P2], no(2, 0), || unanswered(2)),
    ("the last byte cut", SAMPLE.split_at(79).0, &[], || vec![P0, P2, R8], no(3, 0), || unanswered(3)),
    ("the last byte cut, 65 rows", SAMPLE.split_at(79).0, &[], || vec![P2; 65], no(3, 0), || unanswered(65)),
    ("257 groups, no row, a slot", &[1, 0, 9, 1, 1, 0, 0, 0, 0], &[], Vec::new, no(4, 3), || unanswered(1)),
    ("a record past the image, 65 rows, a slot", &[1, 0, 9, 0, 1, 0, 0, 0, 0], &[], || vec![P2; 65], no(5, 9),
        || unanswered(1)),
    ("member 1024, refused rows", &[1, 0, 13, 0, 1, 0, 0, 0, 0, 4, 1, 4, 0], &[], || vec![R8, R9], no(6, 11),
        || unanswered(2)),
    ("a byte behind, a slot too few", &[1, 0, 10, 0, 0, 0, 0, 0, 0, 0], &[], || vec![P2, P2], no(7, 9),
        || unanswered(1)),
];

pub fn run(pair: &Pair, case: u64) -> Outcome {
    let (what, image, added, queries, said, after) = ROWS[case as usize];
    let after = after();
    both(pair, what, (said, after.clone()), |subject| {
        let image = grown(subject, image, added).expect("the sample can be added to");
        asked(subject, &image, &queries(), after.len())
    })
}

/// A run takes the rows, and the program their bytes: what the run says, their answers, and their lines.
pub fn as_rows(
    pair: &Pair,
    what: &str,
    image: &[u8],
    queries: &[Query],
    said: Result<Run, Refusal>,
    answers: &[Answer],
    lines: &str,
) -> Outcome {
    both(pair, what, (said, answers.to_vec()), |subject| asked(subject, image, queries, queries.len()))?;
    let input = [image.to_vec(), queries.iter().flat_map(|query| query.to_bytes()).collect()].concat();
    both(pair, what, lines.to_string(), |subject| subject.permit(&input))
}

/// What a subject says of the rows, and then the answers, all unanswered before.
pub fn asked(
    subject: &dyn Subject,
    image: &[u8],
    queries: &[Query],
    slots: usize,
) -> (Result<Run, Refusal>, Vec<Answer>) {
    let mut answers = unanswered(slots);
    (subject.run(image, queries, &mut answers), answers)
}
