//! Images with twin groups: 19 at the first group that equals an earlier one, after the image's other causes.

use super::check::{groups, with};
use super::many::lone_groups;
use super::permit::longest_with;
use super::small::*;
use super::{both, no};
use crate::compare::{Outcome, Pair};
use crate::draft::{allow, constraint, group, Draft};
use mungaite::Refusal;

type Row = (&'static str, fn() -> Vec<u8>, Result<(), Refusal>);

#[rustfmt::skip]
pub const ROWS: &[Row] = &[
    ("two groups of one member", || groups(&[&[7], &[7]]), no(19, 13)),
    ("two groups of two members", || groups(&[&[7, 8], &[7, 8]]), no(19, 15)),
    ("two groups of type 0", || groups(&[&[0], &[0]]), no(19, 13)),
    ("two groups of 0 and 1023", || groups(&[&[0, 1023], &[0, 1023]]), no(19, 15)),
    ("twins, then another", || groups(&[&[7], &[7], &[8]]), no(19, 13)),
    ("twins between others", || groups(&[&[6], &[7], &[7], &[8]]), no(19, 17)),
    ("twins behind another", || groups(&[&[8], &[7], &[7]]), no(19, 17)),
    ("the last is a twin of the first", || groups(&[&[7], &[8], &[9], &[7]]), no(19, 21)),
    ("the last is a twin of the second", || groups(&[&[7], &[8], &[9], &[8]]), no(19, 21)),
    ("three alike", || groups(&[&[7], &[7], &[7]]), no(19, 13)),
    ("three alike, others between them", || groups(&[&[7], &[8], &[7], &[9], &[7]]), no(19, 17)),
    ("two sets, one behind the other", || groups(&[&[7], &[7], &[8], &[8]]), no(19, 13)),
    ("two sets in turn", || groups(&[&[7], &[8], &[7], &[8]]), no(19, 17)),
    ("two sets, one within the other", || groups(&[&[7], &[8], &[8], &[7]]), no(19, 17)),
    ("three sets, the last of them first", || groups(&[&[7], &[8], &[9], &[9], &[8], &[7]]), no(19, 21)),
    ("sets of other lengths in turn", || groups(&[&[1, 2, 3], &[7], &[1, 2, 3], &[7]]), no(19, 21)),
    ("twins of 64 members", || groups(&[&rising(0, 64), &rising(0, 64)]), no(19, 139)),
    ("twins of 64 members behind another", || groups(&[&rising(1, 64), &rising(0, 64), &rising(0, 64)]), no(19, 269)),
    ("256 alike", || all(vec![group(&[7]); 256]), no(19, 13)),
    ("256, the last a twin of the first", || all([lone_groups(255), vec![group(&[100])]].concat()), no(19, 1029)),
    ("256, the last a twin of the one before", || all([lone_groups(255), vec![group(&[354])]].concat()), no(19, 1029)),
    ("256, the second a twin of the first", || all([vec![group(&[100])], lone_groups(255)].concat()), no(19, 13)),
    ("256, the last of the longest image", || longest_with(33_159, &group(&rising(0, 64))), no(19, 33_159)),
    ("256, the second of the longest image", || longest_with(139, &group(&rising(0, 64))), no(19, 139)),
    ("twins that are named", || policy(&[&[7], &[7]], &[on(G0, G1)], &[roster(G1, G0, &[G1])]), no(19, 13)),
    // No twins: a basic type, other members, other lengths.
    ("a group of 5 and type 5", || policy(&[&[5]], &[on(5, G0), on(G0, 5)], &[ban(5, 5), roster(5, G0, &[5, G0])]),
        Ok(())),
    ("two groups of 5 and type 5", || policy(&[&[5], &[5]], &[on(5, G0)], &[ban(5, 5)]), no(19, 13)),
    ("one group", || groups(&[&[7]]), Ok(())),
    ("other members", || groups(&[&[7, 8], &[9, 10]]), Ok(())),
    ("another first member", || groups(&[&[6, 8, 9], &[7, 8, 9]]), Ok(())),
    ("another member between", || groups(&[&[7, 8, 10], &[7, 9, 10]]), Ok(())),
    ("another last member", || groups(&[&[7, 8, 9], &[7, 8, 10]]), Ok(())),
    ("another lone member", || groups(&[&[7], &[8]]), Ok(())),
    ("a member more", || groups(&[&[7], &[7, 8]]), Ok(())),
    ("a member fewer", || groups(&[&[7, 8], &[7]]), Ok(())),
    ("a member more before", || groups(&[&[8, 9], &[7, 8, 9]]), Ok(())),
    ("all parts of two", || groups(&[&[1, 2], &[1], &[2]]), Ok(())),
    ("the same low bytes", || groups(&[&[0], &[256], &[512], &[768]]), Ok(())),
    ("the same high bytes", || groups(&[&[256], &[257]]), Ok(())),
    ("low bytes that rise otherwise", || groups(&[&[1, 258], &[2, 257]]), Ok(())),
    ("64 members, another last", || groups(&[&rising(0, 64), &[&rising(0, 63)[..], &[64]].concat()]), Ok(())),
    ("64 members, another first", || groups(&[&[&[0], &rising(2, 63)[..]].concat(), &rising(1, 64)]), Ok(())),
    ("63 members and one more", || groups(&[&rising(0, 63), &rising(0, 64)]), Ok(())),
    ("256 groups", || all(lone_groups(256)), Ok(())),
    ("equal rules and equal constraints", || policy(&[&[7]], &[on(1, 2), on(1, 2)], &[ban(1, 2), ban(1, 2)]), Ok(())),
    ("equal transitions and rosters",
        || policy(&[], &[trans(1, 2), trans(1, 2)], &[roster(1, 2, &[3]), roster(1, 2, &[3])]), Ok(())),
    // The image's other causes come first, wherever they stand.
    ("twins in 8 bytes", || groups(&[&[7], &[7]])[..8].to_vec(), no(1, 0)),
    ("twins, version 2", || with(&groups(&[&[7], &[7]]), &[(0, 2)]), no(2, 0)),
    ("twins, the last byte cut", || groups(&[&[7], &[7]])[..16].to_vec(), no(3, 0)),
    ("twins, a byte more than the length field says", || [groups(&[&[7], &[7]]), vec![0]].concat(), no(3, 0)),
    ("twins, 1,025 rules counted", || with(&groups(&[&[7], &[7]]), &[(5, 4), (6, 1)]), no(4, 5)),
    ("twins, then a group whose members fall", || groups(&[&[7], &[7], &[9, 8]]), no(6, 21)),
    ("twins, then a group of kind 9", || all(vec![group(&[7]), group(&[7]), vec![4, 9, 0, 8]]), no(5, 17)),
    ("twins, then a group of length 5", || all(vec![group(&[7]), group(&[7]), vec![5, 1, 0, 8, 0]]), no(5, 17)),
    ("twins, a rule counted that is not there", || with(&groups(&[&[7], &[7]]), &[(6, 1)]), no(5, 17)),
    ("twins, then a bad source", || policy(&[&[7], &[7]], &[on(1024, 2)], &[]), no(6, 19)),
    ("twins, then a rule of kind 9", || policy(&[&[7], &[7]], &[vec![8, 9, 0, 1, 0, 2, 0, 3]], &[]), no(5, 17)),
    ("twins, then a rule that names a third", || policy(&[&[7], &[7]], &[on(1, 2), on(1, G2)], &[]), no(6, 32)),
    ("twins, then condition 34", || policy(&[&[7], &[7]], &[allow(1, 2, 3, 4, 34)], &[]), no(6, 27)),
    ("twins, then predicate 4", || policy(&[&[7], &[7]], &[], &[constraint(0, 0, 0, 0, 4, &[])]), no(6, 27)),
    ("twins, then a listed type of 1024", || policy(&[&[7], &[7]], &[], &[roster(1, 2, &[G1, 1024])]), no(6, 30)),
    ("twins, then a last constraint of length 12",
        || policy(&[&[7], &[7]], &[on(1, 2)], &[vec![12, 4, 0, 0, 0, 0, 0, 0, 0, 0, 0, 0]]), no(5, 28)),
    ("twins, then a byte", || with(&[groups(&[&[7], &[7]]), vec![0]].concat(), &[(2, 18)]), no(7, 17)),
    ("twins and a rule, then three bytes",
        || with(&[policy(&[&[7], &[7]], &[on(1, 2)], &[]), vec![0; 3]].concat(), &[(2, 31)]), no(7, 28)),
    ("equal groups whose members are equal", || groups(&[&[7, 7], &[7, 7]]), no(6, 13)),
    ("the same members, once falling", || groups(&[&[7, 8], &[8, 7]]), no(6, 19)),
    ("the same members, one of them twice", || groups(&[&[7, 8], &[7, 8, 8]]), no(6, 21)),
];

pub fn run(pair: &Pair, case: u64) -> Outcome {
    let (what, image, expected) = ROWS[case as usize];
    both(pair, what, expected, |subject| subject.check(&image()))
}

/// So many members, from one on.
pub fn rising(first: u16, count: u16) -> Vec<u16> {
    (first..first + count).collect()
}

/// A policy of these groups.
pub fn all(groups: Vec<Vec<u8>>) -> Vec<u8> {
    Draft { groups, ..Draft::default() }.image()
}
