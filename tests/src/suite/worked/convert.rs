//! Old images and what the converter makes of them: the lowest of each set of twins stays, the others go, later groups
//! move down, and references follow.

use super::both;
use super::many::lone_groups;
use super::permit::longest_with;
use super::small::*;
use super::twins::{all, rising};
use crate::compare::{Outcome, Pair};
use crate::draft::{allow, constraint, group, transition, Draft};
use crate::sample::{EMPTY, SAMPLE};
use crate::subject::Subject;
use crate::suite::limits::largest;
use crate::suite::texts::room;
use mungaite::Refusal;

/// What is converted, the old image, and the new one.
type Row = (&'static str, fn() -> Vec<u8>, fn() -> Vec<u8>);

const G3: u16 = 32771;
const G4: u16 = 32772;
const G254: u16 = 32768 + 254;
const G255: u16 = 32768 + 255;

/// Two groups of 7 and one of 8: g1 becomes g0, and g2 becomes g1.
const OLD: &[&[u16]] = &[&[7], &[7], &[8]];
const NEW: &[&[u16]] = &[&[7], &[8]];

#[rustfmt::skip]
pub const ROWS: &[Row] = &[
    // Without twins, byte for byte.
    ("the sample", || SAMPLE.to_vec(), || SAMPLE.to_vec()),
    ("the empty policy", || EMPTY.to_vec(), || EMPTY.to_vec()),
    ("the longest image", || longest_with(0, &[1]), || longest_with(0, &[1])),
    ("everything at its limit", || largest().image(), || largest().image()),
    ("256 groups", || all(lone_groups(256)), || all(lone_groups(256))),
    ("one group", || policy(&[&[7]], &[on(G0, G0)], &[]), || policy(&[&[7]], &[on(G0, G0)], &[])),
    ("no group", || policy(&[], &[on(1, 2)], &[ban(1, 2)]), || policy(&[], &[on(1, 2)], &[ban(1, 2)])),
    ("a group of 5 and type 5", || policy(&[&[5]], &[on(5, G0)], &[ban(G0, 5)]),
        || policy(&[&[5]], &[on(5, G0)], &[ban(G0, 5)])),
    ("near twins", near_twins, near_twins),
    ("equal rules", || policy(&[], &[on(1, 2), on(1, 2)], &[ban(1, 2), ban(1, 2)]),
        || policy(&[], &[on(1, 2), on(1, 2)], &[ban(1, 2), ban(1, 2)])),
    // Which groups stay, and in what order.
    ("two alike", || policy(&[&[7], &[7]], &[], &[]), || policy(&[&[7]], &[], &[])),
    ("three alike", || policy(&[&[7], &[7], &[7]], &[on(G2, G1)], &[]), || policy(&[&[7]], &[on(G0, G0)], &[])),
    ("twins, then another", || policy(OLD, &[on(G2, G1), on(G0, G2)], &[]),
        || policy(NEW, &[on(G1, G0), on(G0, G1)], &[])),
    ("twins behind another", || policy(&[&[8], &[7], &[7]], &[on(G2, G0), on(G1, G2)], &[]),
        || policy(&[&[8], &[7]], &[on(G1, G0), on(G1, G1)], &[])),
    ("the last is a twin of the first", || policy(&[&[7], &[8], &[9], &[7]], &[on(G3, G2), on(G1, G0)], &[]),
        || policy(&[&[7], &[8], &[9]], &[on(G0, G2), on(G1, G0)], &[])),
    ("another between twins", || policy(&[&[9], &[8], &[9], &[7]], &[on(G2, G3), on(G1, G0)], &[]),
        || policy(&[&[9], &[8], &[7]], &[on(G0, G2), on(G1, G0)], &[])),
    ("two sets, one behind the other", || policy(&[&[7], &[7], &[8], &[8]], &[on(G1, G3), on(G2, G0)], &[]),
        || policy(&[&[7], &[8]], &[on(G0, G1), on(G1, G0)], &[])),
    ("two sets in turn", || policy(&[&[7], &[8], &[7], &[8]], &[on(G3, G2), on(G1, G0)], &[]),
        || policy(&[&[7], &[8]], &[on(G1, G0), on(G1, G0)], &[])),
    ("two sets, one within the other", || policy(&[&[7], &[8], &[8], &[7]], &[on(G3, G2), on(G2, G3)], &[]),
        || policy(&[&[7], &[8]], &[on(G0, G1), on(G1, G0)], &[])),
    ("two sets in turn, another behind", || policy(&[&[7], &[8], &[7], &[8], &[9]], &[on(G4, G3)], &[ban(G4, G4)]),
        || policy(&[&[7], &[8], &[9]], &[on(G2, G1)], &[ban(G2, G2)])),
    ("three alike, others between and behind",
        || policy(&[&[7], &[8], &[7], &[9], &[7]], &[on(G4, G3), on(G2, G1)], &[]),
        || policy(&[&[7], &[8], &[9]], &[on(G0, G2), on(G0, G1)], &[])),
    ("three alike, then two others", || policy(&[&[7], &[7], &[7], &[8], &[9]], &[on(G4, G3)], &[]),
        || policy(&[&[7], &[8], &[9]], &[on(G2, G1)], &[])),
    ("groups of other lengths",
        || policy(&[&[1, 2, 3], &[7], &[1, 2, 3], &[7], &[1, 2]], &[on(G2, G3), on(G4, G4)], &[]),
        || policy(&[&[1, 2, 3], &[7], &[1, 2]], &[on(G0, G1), on(G2, G2)], &[])),
    ("groups of 64 members", || policy(&[&rising(0, 64), &rising(1, 64), &rising(0, 64)], &[on(G2, G1)], &[]),
        || policy(&[&rising(0, 64), &rising(1, 64)], &[on(G0, G1)], &[])),
    ("two groups of 5 and type 5", || policy(&[&[5], &[5]], &[on(5, G1), on(G0, 5)], &[roster(5, 5, &[5, G1])]),
        || policy(&[&[5]], &[on(5, G0), on(G0, 5)], &[roster(5, 5, &[5, G0])])),
    ("groups that nobody names", || policy(OLD, &[on(7, 8)], &[ban(7, 8)]), || policy(NEW, &[on(7, 8)], &[ban(7, 8)])),
    // 256 groups.
    ("256 alike", || all(vec![group(&[7]); 256]), || all(vec![group(&[7])])),
    ("256 alike that are named", alike_256,
        || policy(&[&[7]], &[on(G0, G0), trans(G0, 7)], &[roster(G0, G0, &[G0; 3])])),
    ("256, the last a twin of the first",
        || of_256([lone_groups(255), vec![group(&[100])]].concat(), &[on(G255, G254)]),
        || of_256(lone_groups(255), &[on(G0, G254)])),
    ("256, the second a twin of the first",
        || of_256([vec![group(&[100])], lone_groups(255)].concat(), &[on(G255, G1)]),
        || of_256(lone_groups(255), &[on(G254, G0)])),
    ("256, each there twice",
        || of_256([lone_groups(128), lone_groups(128)].concat(), &[on(G255, G0), on(32896, 32895)]),
        || of_256(lone_groups(128), &[on(32895, G0), on(G0, 32895)])),
    ("the longest image, its last group twice", || longest_with(33_159, &group(&rising(0, 64))),
        longest_without_its_last),
    // Every field that may name a group.
    ("an allow rule's source, a twin", || policy(OLD, &[on(G1, 7)], &[]), || policy(NEW, &[on(G0, 7)], &[])),
    ("an allow rule's source, moved", || policy(OLD, &[on(G2, 7)], &[]), || policy(NEW, &[on(G1, 7)], &[])),
    ("an allow rule's destination, a twin", || policy(OLD, &[on(7, G1)], &[]), || policy(NEW, &[on(7, G0)], &[])),
    ("an allow rule's destination, moved", || policy(OLD, &[on(7, G2)], &[]), || policy(NEW, &[on(7, G1)], &[])),
    ("a transition's source, a twin", || policy(OLD, &[trans(G1, 7)], &[]), || policy(NEW, &[trans(G0, 7)], &[])),
    ("a transition's source, moved", || policy(OLD, &[trans(G2, 7)], &[]), || policy(NEW, &[trans(G1, 7)], &[])),
    ("a transition's destination, a twin", || policy(OLD, &[trans(7, G1)], &[]), || policy(NEW, &[trans(7, G0)], &[])),
    ("a transition's destination, moved", || policy(OLD, &[trans(7, G2)], &[]), || policy(NEW, &[trans(7, G1)], &[])),
    ("a first argument, a twin", || policy(OLD, &[], &[ban(G1, 7)]), || policy(NEW, &[], &[ban(G0, 7)])),
    ("a first argument, moved", || policy(OLD, &[], &[separation(G2, 7)]), || policy(NEW, &[], &[separation(G1, 7)])),
    ("a second argument, a twin", || policy(OLD, &[], &[companion(7, G1)]), || policy(NEW, &[], &[companion(7, G0)])),
    ("a second argument, moved", || policy(OLD, &[], &[ban(7, G2)]), || policy(NEW, &[], &[ban(7, G1)])),
    ("a list of one, a twin", || policy(OLD, &[], &[roster(7, 8, &[G1])]), || policy(NEW, &[], &[roster(7, 8, &[G0])])),
    ("a list of one, moved", || policy(OLD, &[], &[roster(7, 8, &[G2])]), || policy(NEW, &[], &[roster(7, 8, &[G1])])),
    ("a list of three", || policy(OLD, &[], &[roster(7, 8, &[G2, 3, G1])]),
        || policy(NEW, &[], &[roster(7, 8, &[G1, 3, G0])])),
    ("a list of 16", || policy(OLD, &[], &[roster(G1, G2, &[G2; 16])]),
        || policy(NEW, &[], &[roster(G0, G1, &[G1; 16])])),
    ("a list of 16, the last alone a group", || policy(OLD, &[], &[roster(7, 8, &last_of_16(G2))]),
        || policy(NEW, &[], &[roster(7, 8, &last_of_16(G1))])),
    ("every field", || policy(OLD, &[on(G2, G2), trans(G2, G2)], &[roster(G2, G2, &[G2, G2])]),
        || policy(NEW, &[on(G1, G1), trans(G1, G1)], &[roster(G1, G1, &[G1, G1])])),
    // What becomes equal stays.
    ("listed types that become equal", || policy(OLD, &[], &[roster(7, 8, &[G0, G1, G2, G0])]),
        || policy(NEW, &[], &[roster(7, 8, &[G0, G0, G1, G0])])),
    ("rules that become equal", || policy(OLD, &[on(G0, 7), on(G1, 7)], &[]),
        || policy(NEW, &[on(G0, 7), on(G0, 7)], &[])),
    ("constraints that become equal", || policy(OLD, &[], &[ban(7, G1), ban(7, G0)]),
        || policy(NEW, &[], &[ban(7, G0), ban(7, G0)])),
    ("arguments that become equal", || policy(OLD, &[], &[separation(G0, G1)]),
        || policy(NEW, &[], &[separation(G0, G0)])),
    // Nothing else is changed: numbers that would be groups as types, conditions, order.
    ("class and action 32769 and 32770", || numbers(OLD), || numbers(NEW)),
    ("conditions", || policy(OLD, &[off(G1, 7), waits(0, G1, 7), waits(31, G2, 7)], &[]),
        || policy(NEW, &[off(G0, 7), waits(0, G0, 7), waits(31, G1, 7)], &[])),
    ("types 0, 1 and 2", || policy(OLD, &[on(1, 2), trans(2, 0)], &[roster(1, 2, &[1, 2])]),
        || policy(NEW, &[on(1, 2), trans(2, 0)], &[roster(1, 2, &[1, 2])])),
    ("rules and constraints in their order",
        || policy(OLD, &[trans(G2, 1), on(3, 4), on(G1, 2)], &[roster(1, 2, &[G2]), ban(1, G1)]),
        || policy(NEW, &[trans(G1, 1), on(3, 4), on(G0, 2)], &[roster(1, 2, &[G1]), ban(1, G0)])),
];

/// The new image in buffers that it just fits and that are longer, whose other bytes stay; from the program; and again
/// from itself. It is accepted.
pub fn run(pair: &Pair, case: u64) -> Outcome {
    let (what, old, new) = ROWS[case as usize];
    let (old, new) = (old(), new());
    for (image, length) in
        [(&old, new.len()), (&old, new.len() + 1), (&old, old.len()), (&old, 70_000), (&new, new.len())]
    {
        let after = [&new, &room(length)[new.len()..]].concat();
        both(pair, what, (Ok(new.len()), after), |subject| converted(subject, image, length))?;
    }
    both(pair, what, Ok(new.clone()), |subject| subject.convert_program(&old))?;
    both(pair, what, Ok(()), |subject| subject.check(&new))
}

/// What a subject says of an old image, and then the buffer.
pub fn converted(subject: &dyn Subject, image: &[u8], length: usize) -> (Result<usize, Refusal>, Vec<u8>) {
    let mut buffer = room(length);
    (subject.convert(image, &mut buffer), buffer)
}

/// Groups that differ in one member, in the first, in the last, in a low byte or in length, each named.
fn near_twins() -> Vec<u8> {
    policy(
        &[&[7, 8], &[7, 9], &[6, 8], &[7], &[8], &[263], &[7, 8, 9]],
        &[on(G0, G1), on(G2, G3), on(G4, G4 + 1), on(G4 + 2, G0)],
        &[roster(G1, G2, &[G0, G1, G2, G3, G4, G4 + 1, G4 + 2])],
    )
}

/// 256 groups of 7, named by the highest number, the lowest and one between.
fn alike_256() -> Vec<u8> {
    let rules = vec![on(G255, G0), trans(G254, 7)];
    let constraints = vec![roster(G255, G254, &[G0, 32768 + 100, G255])];
    Draft { groups: vec![group(&[7]); 256], rules, constraints }.image()
}

/// Classes and actions that would name groups if they were types.
fn numbers(groups: &[&[u16]]) -> Vec<u8> {
    let rules = [allow(7, 8, 32769, 32770, 1), transition(7, 8, 32770)];
    policy(groups, &rules, &[constraint(32769, 32770, 7, 8, 0, &[])])
}

fn of_256(groups: Vec<Vec<u8>>, rules: &[Vec<u8>]) -> Vec<u8> {
    Draft { groups, rules: rules.to_vec(), ..Draft::default() }.image()
}

/// The longest image without its last group: 130 bytes fewer, 55,431, and 255 groups.
fn longest_without_its_last() -> Vec<u8> {
    let mut image = longest_with(0, &[1]);
    image.drain(33_159..33_289);
    image[1..5].copy_from_slice(&[0xD8, 0x87, 0, 255]);
    image
}

fn last_of_16(last: u16) -> Vec<u16> {
    [vec![3; 15], vec![last]].concat()
}
