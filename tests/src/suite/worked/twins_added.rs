//! Added groups whose members a group has: 20 with place 0, after 10 and 11 and before 12 and 13.

use super::add::{adds, grown, many, room, roomy, spent, Row};
use super::no;
use crate::compare::{Outcome, Pair};

/// The sample has one group, 20 and 21. Where there are many, they have one member, 100 and up.
#[rustfmt::skip]
pub const ROWS: &[Row] = &[
    ("20 and 21 again", || room(20), TWIN, no(20, 0), || room(20)),
    ("20 and 21 again, in a buffer of just that length", || room(6), TWIN, no(20, 0), || room(6)),
    ("20 and 21 again, one byte short", || room(5), TWIN, no(20, 0), || room(5)),
    ("20 and 21 again, no room", || room(0), TWIN, no(20, 0), || room(0)),
    ("20 and 21 again, and a byte", || room(20), &[6, 1, 0, 20, 0, 21, 0], no(10, 0), || room(20)),
    ("20 and 21 again, 8 bytes said", || room(20), &[8, 1, 0, 20, 0, 21], no(10, 0), || room(20)),
    ("20 and 21, of kind 0", || room(20), &[6, 0, 0, 20, 0, 21], no(10, 0), || room(20)),
    ("21 and 20", || room(20), &[6, 1, 0, 21, 0, 20], no(11, 4), || room(20)),
    ("20, 21 and 21", || room(20), &[8, 1, 0, 20, 0, 21, 0, 21], no(11, 6), || room(20)),
    ("20, 20 and 21, no room", || room(0), &[8, 1, 0, 20, 0, 20, 0, 21], no(11, 4), || room(0)),
    // No twins of it.
    ("20", || room(4), &[4, 1, 0, 20], Ok(1), || grown(3, 2, 15, &[4, 1, 0, 20], 0)),
    ("21", || room(9), &[4, 1, 0, 21], Ok(1), || grown(3, 2, 15, &[4, 1, 0, 21], 5)),
    ("20 and 22", || room(6), &[6, 1, 0, 20, 0, 22], Ok(1), || grown(3, 2, 15, &[6, 1, 0, 20, 0, 22], 0)),
    ("19 and 21", || room(6), &[6, 1, 0, 19, 0, 21], Ok(1), || grown(3, 2, 15, &[6, 1, 0, 19, 0, 21], 0)),
    ("276 and 277", || room(6), &[6, 1, 1, 20, 1, 21], Ok(1), || grown(3, 2, 15, &[6, 1, 1, 20, 1, 21], 0)),
    ("20, 21 and 22", || room(8), &[8, 1, 0, 20, 0, 21, 0, 22], Ok(1),
        || grown(3, 2, 15, &[8, 1, 0, 20, 0, 21, 0, 22], 0)),
    ("19, 20 and 21", || room(8), &[8, 1, 0, 19, 0, 20, 0, 21], Ok(1),
        || grown(3, 2, 15, &[8, 1, 0, 19, 0, 20, 0, 21], 0)),
    ("10, a type that rules name", || room(4), &[4, 1, 0, 10], Ok(1), || grown(3, 2, 15, &[4, 1, 0, 10], 0)),
    ("a rule that is there", || roomy(many(0, 1, 0)), RULE, Ok(1), || spent(many(0, 2, 0), 11)),
    ("a ban that is there", || roomy(many(0, 0, 1)), BAN, Ok(1), || spent(many(0, 0, 2), 11)),
    // Any group may be the one that is there.
    ("the first of three", || roomy(many(3, 0, 0)), &[4, 1, 0, 100], no(20, 0), || roomy(many(3, 0, 0))),
    ("the second of three", || roomy(many(3, 0, 0)), &[4, 1, 0, 101], no(20, 0), || roomy(many(3, 0, 0))),
    ("the last of three", || roomy(many(3, 0, 0)), &[4, 1, 0, 102], no(20, 0), || roomy(many(3, 0, 0))),
    ("a fourth", || roomy(many(3, 0, 0)), &[4, 1, 0, 103], Ok(3), || spent(many(4, 0, 0), 4)),
    ("the only one", || roomy(many(1, 0, 0)), &[4, 1, 0, 100], no(20, 0), || roomy(many(1, 0, 0))),
    ("a first one", || roomy(many(0, 0, 0)), &[4, 1, 0, 100], Ok(0), || spent(many(1, 0, 0), 4)),
    // Before a full section, and beside one.
    ("the first of 256", || roomy(many(256, 0, 0)), &[4, 1, 0, 100], no(20, 0), || roomy(many(256, 0, 0))),
    ("the first of 256, no room", || many(256, 0, 0), &[4, 1, 0, 100], no(20, 0), || many(256, 0, 0)),
    ("the middle one of 256", || roomy(many(256, 0, 0)), &[4, 1, 0, 228], no(20, 0), || roomy(many(256, 0, 0))),
    ("the last of 256", || roomy(many(256, 0, 0)), &[4, 1, 1, 99], no(20, 0), || roomy(many(256, 0, 0))),
    ("the last of 256, no room", || many(256, 0, 0), &[4, 1, 1, 99], no(20, 0), || many(256, 0, 0)),
    ("none of 256", || roomy(many(256, 0, 0)), &[4, 1, 1, 100], no(12, 0), || roomy(many(256, 0, 0))),
    ("none of 256, no room", || many(256, 0, 0), &[4, 1, 1, 100], no(12, 0), || many(256, 0, 0)),
    ("the first of 256 twice over", || roomy(many(256, 0, 0)), &[6, 1, 0, 100, 0, 100], no(11, 4),
        || roomy(many(256, 0, 0))),
    ("the last of 255", || roomy(many(255, 0, 0)), &[4, 1, 1, 98], no(20, 0), || roomy(many(255, 0, 0))),
    ("the first of 3, where the rules are full", || roomy(many(3, 1024, 0)), &[4, 1, 0, 100], no(20, 0),
        || roomy(many(3, 1024, 0))),
];

const TWIN: &[u8] = &[6, 1, 0, 20, 0, 21];
const RULE: &[u8] = &[11, 2, 0, 1, 0, 2, 0, 3, 0, 4, 1];
const BAN: &[u8] = &[11, 4, 0, 5, 0, 1, 0, 10, 0, 21, 0];

pub fn run(pair: &Pair, case: u64) -> Outcome {
    adds(pair, ROWS[case as usize])
}
