//! Which images are accepted.

use super::many::lone_groups;
use super::permit::longest_with;
use super::{both, no};
use crate::compare::{Outcome, Pair};
use crate::draft::{allow, constraint, group, transition, Draft};
use crate::sample::{EMPTY, SAMPLE};
use mungaite::Refusal;

type Row = (&'static str, fn() -> Vec<u8>, Result<(), Refusal>);

#[rustfmt::skip]
pub const ROWS: &[Row] = &[
    ("the sample", || SAMPLE.to_vec(), Ok(())),
    ("the empty policy", || EMPTY.to_vec(), Ok(())),
    ("last byte cut", || SAMPLE[..79].to_vec(), no(3, 0)),
    ("cut, and length field 79", || with(&SAMPLE[..79], &[(2, 79)]), no(5, 69)),
    ("one byte more and length field 81", || with(&[&SAMPLE[..], &[0]].concat(), &[(2, 81)]), no(7, 80)),
    ("three bytes more and length field 83", || with(&[&SAMPLE[..], &[0; 3]].concat(), &[(2, 83)]), no(7, 80)),
    ("64 members", || groups(&[&rising(64)]), Ok(())),
    ("65 members, a group record of length 132", || groups(&[&rising(65)]), no(5, 9)),
    ("1,024 rules", || rules(&vec![allow(1, 2, 3, 4, 1); 1024]), Ok(())),
    ("1,025 rules", || rules(&vec![allow(1, 2, 3, 4, 1); 1025]), no(4, 5)),
    ("condition 34", || with(&SAMPLE, &[(25, 34)]), no(6, 25)),
    // The table's causes, 1 to 4 in rising order.
    ("no bytes", Vec::new, no(1, 0)),
    ("8 bytes, version 0", || vec![0; 8], no(1, 0)),
    ("version 0", || with(&SAMPLE, &[(0, 0)]), no(2, 0)),
    ("version 2, length field 8", || vec![2, 0, 8, 0, 0, 0, 0, 0, 0], no(2, 0)),
    ("length field 8, 257 groups", || vec![1, 0, 8, 1, 1, 0, 0, 0, 0], no(3, 0)),
    ("length field 10", || vec![1, 0, 10, 0, 0, 0, 0, 0, 0], no(3, 0)),
    ("length field 10, 65,535 groups", || vec![1, 0, 10, 255, 255, 0, 0, 0, 0], no(3, 0)),
    ("257 groups", || vec![1, 0, 9, 1, 1, 0, 0, 0, 0], no(4, 3)),
    ("257 constraints", || vec![1, 0, 9, 0, 0, 0, 0, 1, 1], no(4, 7)),
    ("257 groups and 1,025 rules", || vec![1, 0, 9, 1, 1, 4, 1, 0, 0], no(4, 3)),
    ("1,025 rules and 257 constraints", || vec![1, 0, 9, 0, 0, 4, 1, 1, 1], no(4, 5)),
    ("257 groups and 257 constraints", || vec![1, 0, 9, 1, 1, 0, 0, 1, 1], no(4, 3)),
    ("each count one over its limit", || vec![1, 0, 9, 1, 1, 4, 1, 1, 1], no(4, 3)),
    ("256 groups, 1,025 rules, 257 constraints", || vec![1, 0, 9, 1, 0, 4, 1, 1, 1], no(4, 5)),
    ("256 groups, 1,024 rules, 257 constraints", || vec![1, 0, 9, 1, 0, 4, 0, 1, 1], no(4, 7)),
    ("each count at its limit, and no record", || vec![1, 0, 9, 1, 0, 4, 0, 1, 0], no(5, 9)),
    ("257 constraints and a bad group", || with(&SAMPLE, &[(7, 1), (8, 1), (10, 9)]), no(4, 7)),
    ("one byte more, length field 80", || [&SAMPLE[..], &[0]].concat(), no(3, 0)),
    ("65,536 bytes more than the length field says", || [&SAMPLE[..], &[0; 65536]].concat(), no(3, 0)),
    // Records in order, 5 before 6 at each record, fields in byte order, then 7.
    ("a count one too high", || with(&SAMPLE, &[(8, 3)]), no(5, 80)),
    ("a count one too low", || with(&SAMPLE, &[(8, 1)]), no(7, 69)),
    ("a bad record and bytes after the last", || with(&[&SAMPLE[..], &[0]].concat(), &[(2, 81), (57, 5)]), no(5, 56)),
    ("a lone length byte", || vec![1, 0, 10, 0, 1, 0, 0, 0, 0, 4], no(5, 9)),
    ("kind 2 among the groups", || with(&SAMPLE, &[(10, 2)]), no(5, 9)),
    ("an allow rule among the groups", || Draft { groups: vec![allow(1, 2, 3, 4, 1)], ..Draft::default() }.image(), no(5, 9)),
    ("a transition among the groups", || Draft { groups: vec![transition(1, 2, 3)], ..Draft::default() }.image(), no(5, 9)),
    ("a constraint among the groups", || Draft { groups: vec![constraint(0, 0, 0, 0, 0, &[])], ..Draft::default() }.image(), no(5, 9)),
    ("a group among the rules", || rules(&[group(&[1])]), no(5, 9)),
    ("a constraint among the rules", || rules(&[constraint(0, 0, 0, 0, 0, &[])]), no(5, 9)),
    ("a group among the constraints", || constraints(&[group(&[1])]), no(5, 9)),
    ("an allow rule among the constraints", || constraints(&[allow(1, 2, 3, 4, 1)]), no(5, 9)),
    ("a transition among the constraints", || constraints(&[transition(1, 2, 3)]), no(5, 9)),
    ("kind 0", || with(&SAMPLE, &[(57, 0)]), no(5, 56)),
    ("kind 5", || with(&SAMPLE, &[(57, 5)]), no(5, 56)),
    ("kind 5 among the rules", || with(&SAMPLE, &[(16, 5)]), no(5, 15)),
    ("a group of length 2", || vec![1, 0, 11, 0, 1, 0, 0, 0, 0, 2, 1], no(5, 9)),
    ("a group of length 5", || vec![1, 0, 14, 0, 1, 0, 0, 0, 0, 5, 1, 0, 1, 0], no(5, 9)),
    ("an allow rule of length 8", || rules(&[vec![8, 2, 0, 1, 0, 2, 0, 3]]), no(5, 9)),
    ("an allow rule of length 12", || rules(&[vec![12, 2, 0, 1, 0, 2, 0, 3, 0, 4, 1, 0]]), no(5, 9)),
    ("a transition of length 11", || rules(&[vec![11, 3, 0, 1, 0, 2, 0, 3, 0, 4, 1]]), no(5, 9)),
    ("a constraint of length 9", || constraints(&[vec![9, 4, 0, 1, 0, 2, 0, 3, 0]]), no(5, 9)),
    ("a constraint of length 12", || constraints(&[vec![12, 4, 0, 1, 0, 2, 0, 3, 0, 4, 0, 0]]), no(5, 9)),
    ("a constraint of length 14", || constraints(&[vec![14, 4, 0, 1, 0, 2, 0, 3, 0, 4, 2, 0, 7, 0]]), no(5, 9)),
    ("a last constraint of length 255", || with(&SAMPLE, &[(69, 255)]), no(5, 69)),
    ("the longest image, one group fewer counted", || longest_with(3, &[0, 255]), no(5, 33_159)),
    // How far a walk reaches: past the last of 256 groups of 130 bytes, 1,024 rules of 11 and 256 constraints of 43. Bytes
    // may lie behind that up to 65,535, which the length field can say.
    ("the longest image", || longest_and(0), Ok(())),
    ("the longest image and a byte", || longest_and(1), no(7, 55_561)),
    ("the longest image and a byte of 255", || with(&longest_and(1), &[(55_561, 255)]), no(7, 55_561)),
    ("the longest image and bytes up to 65,535", || longest_and(9_974), no(7, 55_561)),
    ("the longest image, its last constraint of length 45, and bytes", || with(&longest_and(9_974), &[(55_518, 45)]), no(5, 55_518)),
    ("the longest image, its last constraint of length 255, and bytes", || with(&longest_and(9_974), &[(55_518, 255)]), no(5, 55_518)),
    ("the longest image, its last rule of length 12", || with(&longest_and(0), &[(44_542, 12)]), no(5, 44_542)),
    ("the longest image, its last rule a transition", || with(&longest_and(0), &[(44_542, 8), (44_543, 3)]), no(5, 44_550)),
    ("the longest image, a bad source in its first rule", || with(&longest_and(0), &[(33_291, 4)]), no(6, 33_291)),
    ("the longest image, its last constraint one type shorter", || with(&longest_and(0), &[(55_518, 41)]), no(7, 55_559)),
    ("65,535 bytes, no record, and no count", || with(&vec![0; 65_535], &[(0, 1), (1, 255), (2, 255)]), no(7, 9)),
    ("65,535 bytes of 255, each count at its limit", || [vec![1, 255, 255, 1, 0, 4, 0, 1, 0], vec![255; 65_526]].concat(), no(5, 9)),
    ("record length 0", || vec![1, 0, 11, 0, 1, 0, 0, 0, 0, 0, 1], no(5, 9)),
    ("a rule of length 12 and a bad source", || rules(&[vec![12, 2, 4, 0, 0, 2, 0, 3, 0, 4, 1, 0]]), no(5, 9)),
    ("a rule past the image and a bad source", || vec![1, 0, 19, 0, 0, 0, 1, 0, 0, 11, 2, 4, 0, 0, 2, 0, 3, 0, 4], no(5, 9)),
    ("a group of length 5 and a bad member", || vec![1, 0, 14, 0, 1, 0, 0, 0, 0, 5, 1, 4, 0, 0], no(5, 9)),
    ("a bad field in record 0, a bad record 1", || with(&SAMPLE, &[(13, 4), (16, 9)]), no(6, 13)),
    ("a bad record 0, a bad field in record 1", || with(&SAMPLE, &[(10, 9), (17, 4)]), no(5, 9)),
    ("a bad field in rule 0, a bad rule 1", || rules(&[allow(1024, 2, 3, 4, 1), vec![11, 9, 0, 1, 0, 2, 0, 3, 0, 4, 1]]), no(6, 11)),
    ("a bad last field and bytes after it", || with(&[&SAMPLE[..], &[0]].concat(), &[(2, 81), (79, 4)]), no(6, 79)),
    // Members: basic types, strictly rising. Of two that do not rise the later is the bad one.
    ("member 1024", || groups(&[&[1023, 1024]]), no(6, 13)),
    ("members that fall", || groups(&[&[21, 20]]), no(6, 13)),
    ("equal members", || groups(&[&[20, 20]]), no(6, 13)),
    ("a group among the members", || groups(&[&[5], &[32768]]), no(6, 15)),
    ("two groups", || groups(&[&[5], &[0, 1023]]), Ok(())),
    ("member 65535", || groups(&[&[65535]]), no(6, 11)),
    ("members 65535, 0, 0", || groups(&[&[65535, 0, 0]]), no(6, 11)),
    ("members 5, 3, 1024", || groups(&[&[5, 3, 1024]]), no(6, 13)),
    ("members 5, 1024, 3", || groups(&[&[5, 1024, 3]]), no(6, 13)),
    ("members 2000, 5", || groups(&[&[2000, 5]]), no(6, 11)),
    ("members 1030, 1025", || groups(&[&[1030, 1025]]), no(6, 11)),
    ("members 1024, 1025", || groups(&[&[1024, 1025]]), no(6, 11)),
    ("members 7, 5, 6", || groups(&[&[7, 5, 6]]), no(6, 13)),
    ("members 5, 7, 7, 6", || groups(&[&[5, 7, 7, 6]]), no(6, 15)),
    ("members 255, 256", || groups(&[&[255, 256]]), Ok(())),
    // The fields of a rule.
    ("rule source 1024", || with(&SAMPLE, &[(17, 4), (18, 0)]), no(6, 17)),
    ("rule source 32522", || with(&SAMPLE, &[(17, 127)]), no(6, 17)),
    ("transition source 65292", || with(&SAMPLE, &[(39, 255)]), no(6, 39)),
    ("rule source g10, and one group", || with(&SAMPLE, &[(17, 128)]), no(6, 17)),
    ("rule destination g1", || with(&SAMPLE, &[(20, 1)]), no(6, 19)),
    ("source g255, destination g256, and 256 groups", || of_256_groups(allow(33_023, 33_024, 3, 4, 1)), no(6, 1037)),
    ("source g0, destination g255, and 256 groups", || of_256_groups(allow(32_768, 33_023, 3, 4, 1)), Ok(())),
    ("transition destination 32767", || with(&SAMPLE, &[(41, 127), (42, 255)]), no(6, 41)),
    ("transition of class 65535", || rules(&[transition(0, 1023, 65535)]), Ok(())),
    ("allow source and destination bad", || rules(&[allow(1024, 1024, 3, 4, 1)]), no(6, 11)),
    ("allow source and condition bad", || rules(&[allow(1024, 2, 3, 4, 34)]), no(6, 11)),
    ("allow destination and condition bad", || rules(&[allow(1, 1024, 3, 4, 34)]), no(6, 13)),
    ("allow condition 0", || rules(&[allow(1, 2, 3, 4, 0)]), Ok(())),
    ("allow condition 2", || rules(&[allow(1, 2, 3, 4, 2)]), Ok(())),
    ("allow condition 3", || rules(&[allow(1, 2, 3, 4, 3)]), Ok(())),
    ("allow condition 32", || rules(&[allow(1, 2, 3, 4, 32)]), Ok(())),
    ("allow condition 33", || rules(&[allow(1, 2, 3, 4, 33)]), Ok(())),
    ("allow condition 34", || rules(&[allow(1, 2, 3, 4, 34)]), no(6, 19)),
    ("allow condition 35", || rules(&[allow(1, 2, 3, 4, 35)]), no(6, 19)),
    ("allow condition 64", || rules(&[allow(1, 2, 3, 4, 64)]), no(6, 19)),
    ("allow condition 128", || rules(&[allow(1, 2, 3, 4, 128)]), no(6, 19)),
    ("allow condition 255", || rules(&[allow(1, 2, 3, 4, 255)]), no(6, 19)),
    ("each condition", || rules(&(0..=33).map(|condition| allow(1, 2, 3, 4, condition)).collect::<Vec<_>>()), Ok(())),
    ("condition 33, then 34", || rules(&[allow(1, 2, 3, 4, 33), allow(1, 2, 3, 4, 34)]), no(6, 30)),
    ("transition source and destination bad", || rules(&[transition(1024, 1024, 3)]), no(6, 11)),
    ("transition destination bad", || rules(&[transition(1, 1024, 3)]), no(6, 13)),
    ("allow of class and action 65535", || rules(&[allow(0, 1023, 65535, 65535, 1)]), Ok(())),
    // The fields of a constraint.
    ("both arguments bad", || constraints(&[constraint(0, 0, 1024, 1024, 0, &[])]), no(6, 15)),
    ("first argument and predicate bad", || constraints(&[constraint(0, 0, 1024, 0, 4, &[])]), no(6, 15)),
    ("second argument and predicate bad", || constraints(&[constraint(0, 0, 0, 1024, 4, &[])]), no(6, 17)),
    ("class and action 65535", || constraints(&[constraint(65535, 65535, 0, 1023, 3, &[])]), Ok(())),
    ("first argument 1024", || with(&SAMPLE, &[(62, 4), (63, 0)]), no(6, 62)),
    ("second argument g1", || with(&SAMPLE, &[(64, 128), (65, 1)]), no(6, 64)),
    ("predicate 4", || with(&SAMPLE, &[(79, 4)]), no(6, 79)),
    ("a roster without a list", || with(&SAMPLE, &[(79, 2)]), no(6, 79)),
    ("a ban with a list", || with(&SAMPLE, &[(66, 0)]), no(6, 66)),
    ("a list type 1024", || with(&SAMPLE, &[(67, 4), (68, 0)]), no(6, 67)),
    ("a separation with a list", || constraints(&[constraint(0, 0, 0, 0, 1, &[7])]), no(6, 19)),
    ("a companion with a list", || constraints(&[constraint(0, 0, 0, 0, 3, &[7])]), no(6, 19)),
    ("predicate 4 with a list of bad types", || constraints(&[constraint(0, 0, 0, 0, 4, &[1024])]), no(6, 19)),
    ("predicate 255", || constraints(&[constraint(0, 0, 0, 0, 255, &[])]), no(6, 19)),
    ("listed types 1024 and 1025", || constraints(&[constraint(0, 0, 0, 0, 2, &[1024, 1025])]), no(6, 20)),
    ("listed types 7 and 1024", || constraints(&[constraint(0, 0, 0, 0, 2, &[7, 1024])]), no(6, 22)),
    ("listed type g0, and no group", || constraints(&[constraint(0, 0, 0, 0, 2, &[7, 32768])]), no(6, 22)),
    ("a bad argument and a bad listed type", || constraints(&[constraint(0, 0, 0, 1024, 2, &[1024])]), no(6, 17)),
    ("a bad argument, and a list that does not suit", || constraints(&[constraint(0, 0, 0, 1024, 1, &[0])]), no(6, 17)),
    ("a list that does not suit, of bad types", || constraints(&[constraint(0, 0, 0, 0, 1, &[1024])]), no(6, 19)),
    ("a list of 15", || constraints(&[constraint(0, 0, 0, 0, 2, &[7; 15])]), Ok(())),
    ("a list of 16", || constraints(&[constraint(0, 0, 0, 0, 2, &[7; 16])]), Ok(())),
    ("a list of 17, a record of length 45", || constraints(&[constraint(0, 0, 0, 0, 2, &[7; 17])]), no(5, 9)),
];

pub fn run(pair: &Pair, case: u64) -> Outcome {
    let (what, image, expected) = ROWS[case as usize];
    both(pair, what, expected, |subject| subject.check(&image()))
}

/// The bytes with other values at some places.
pub fn with(bytes: &[u8], changes: &[(usize, u8)]) -> Vec<u8> {
    let mut bytes = bytes.to_vec();
    for &(place, value) in changes {
        bytes[place] = value;
    }
    bytes
}

/// The longest image and so many bytes behind it, with a length field that says so.
fn longest_and(more: usize) -> Vec<u8> {
    let mut image = longest_with(0, &[1]);
    image.resize(55_561 + more, 0);
    let length = image.len() as u16;
    image[1..3].copy_from_slice(&length.to_be_bytes());
    image
}

fn rising(count: u16) -> Vec<u16> {
    (0..count).collect()
}

pub fn groups(members: &[&[u16]]) -> Vec<u8> {
    Draft { groups: members.iter().map(|members| group(members)).collect(), ..Draft::default() }.image()
}

fn rules(records: &[Vec<u8>]) -> Vec<u8> {
    Draft { rules: records.to_vec(), ..Draft::default() }.image()
}

fn constraints(records: &[Vec<u8>]) -> Vec<u8> {
    Draft { constraints: records.to_vec(), ..Draft::default() }.image()
}

/// 256 groups of 4 bytes, and a rule, at 1,033.
fn of_256_groups(rule: Vec<u8>) -> Vec<u8> {
    Draft { groups: lone_groups(256), rules: vec![rule], ..Draft::default() }.image()
}
