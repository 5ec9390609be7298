//! Adding to the sample, and what refuses it.

use super::decide::ALLOW_10_30;
use super::many::lone_groups;
use super::no;
use crate::compare::{equal, same_bytes, Outcome, Pair};
use crate::draft::{allow, Draft};
use crate::sample::SAMPLE;
use crate::subject::Subject;
use mungaite::Refusal;

pub type Row = (&'static str, fn() -> Vec<u8>, &'static [u8], Result<u16, Refusal>, fn() -> Vec<u8>);

/// What is added, the buffer, the record, the answer, the buffer afterwards.
#[rustfmt::skip]
pub const ROWS: &[Row] = &[
    ("a rule", || room(14), ALLOW_10_30, Ok(4), || grown(5, 5, 56, ALLOW_10_30, 3)),
    ("a rule of switch 0", || room(14), SWITCH_0, Ok(4), || grown(5, 5, 56, SWITCH_0, 3)),
    ("a rule of switch 31", || room(11), SWITCH_31, Ok(4), || grown(5, 5, 56, SWITCH_31, 0)),
    ("a group", || room(6), &[6, 1, 0, 1, 0, 2], Ok(1), || grown(3, 2, 15, &[6, 1, 0, 1, 0, 2], 0)),
    ("a transition", || room(8), &[8, 3, 0, 1, 0, 2, 0, 3], Ok(4), || grown(5, 5, 56, &[8, 3, 0, 1, 0, 2, 0, 3], 0)),
    ("a ban", || room(12), BAN, Ok(2), || grown(7, 3, 80, BAN, 1)),
    ("a roster of g0 and 9", || room(16), ROSTER, Ok(2), || grown(7, 3, 80, ROSTER, 1)),
    ("a group of 1", || room(18), GROUP_1, Ok(1), || grown(3, 2, 15, GROUP_1, 14)),
    ("then a rule that names it", || grown(3, 2, 15, GROUP_1, 14), RULE_OF_GROUP_1, Ok(4), grown_by_both),
    ("no byte", || room(20), &[], no(10, 0), || room(20)),
    ("one byte", || room(20), &[1], no(10, 0), || room(20)),
    ("a rule cut", || room(20), &[11, 2, 0, 10, 0, 30, 0, 5, 0, 3], no(10, 0), || room(20)),
    ("a rule and a byte", || room(20), &[11, 2, 0, 10, 0, 30, 0, 5, 0, 3, 1, 0], no(10, 0), || room(20)),
    ("a rule that says 10 bytes", || room(20), &[10, 2, 0, 10, 0, 30, 0, 5, 0, 3, 1], no(10, 0), || room(20)),
    ("a rule and 256 bytes", || room(300), &RULE_AND_256, no(10, 0), || room(300)),
    ("a ban, with 65,536 bytes of room", || room(65536), BAN, Ok(2), || grown(7, 3, 80, BAN, 65525)),
    ("a rule cut, no room", || room(0), &[11, 2, 0, 10, 0, 30, 0, 5, 0, 3], no(10, 0), || room(0)),
    ("a rule cut, a full section", full, &[11, 2, 0, 10, 0, 30, 0, 5, 0, 3], no(10, 0), full),
    ("a rule of a bad source and a byte", || room(20), &[11, 2, 4, 0, 0, 30, 0, 5, 0, 3, 1, 0], no(10, 0), || room(20)),
    ("kind 0", || room(20), &[11, 0, 0, 10, 0, 30, 0, 5, 0, 3, 1], no(10, 0), || room(20)),
    ("kind 5", || room(20), &[11, 5, 0, 10, 0, 30, 0, 5, 0, 3, 1], no(10, 0), || room(20)),
    ("a group without members", || room(20), &[2, 1], no(10, 0), || room(20)),
    ("a group of length 5", || room(20), &[5, 1, 0, 1, 0], no(10, 0), || room(20)),
    ("an allow rule of length 8", || room(20), &[8, 2, 0, 10, 0, 30, 0, 5], no(10, 0), || room(20)),
    ("an allow rule of length 12", || room(20), &[12, 2, 0, 10, 0, 30, 0, 5, 0, 3, 1, 0], no(10, 0), || room(20)),
    ("a transition of length 11", || room(20), &[11, 3, 0, 10, 0, 30, 0, 5, 0, 3, 1], no(10, 0), || room(20)),
    ("a constraint of length 12", || room(20), &[12, 4, 0, 5, 0, 1, 0, 10, 0, 21, 0, 0], no(10, 0), || room(20)),
    // Fields in byte order, by their places in the record.
    ("source g1", || room(20), &[11, 2, 128, 1, 0, 30, 0, 5, 0, 3, 1], no(11, 2), || room(20)),
    ("destination g1", || room(20), &[11, 2, 0, 10, 128, 1, 0, 5, 0, 3, 1], no(11, 4), || room(20)),
    ("allow source and destination bad", || room(20), &[11, 2, 4, 0, 4, 0, 0, 5, 0, 3, 1], no(11, 2), || room(20)),
    ("allow source and condition bad", || room(20), &[11, 2, 4, 0, 0, 30, 0, 5, 0, 3, 34], no(11, 2), || room(20)),
    ("allow destination and condition bad", || room(20), &[11, 2, 0, 10, 4, 0, 0, 5, 0, 3, 34], no(11, 4), || room(20)),
    ("condition 34", || room(20), &[11, 2, 0, 10, 0, 30, 0, 5, 0, 3, 34], no(11, 10), || room(20)),
    ("condition 35", || room(20), &[11, 2, 0, 10, 0, 30, 0, 5, 0, 3, 35], no(11, 10), || room(20)),
    ("condition 255", || room(20), &[11, 2, 0, 10, 0, 30, 0, 5, 0, 3, 255], no(11, 10), || room(20)),
    ("transition source and destination bad", || room(20), &[8, 3, 4, 0, 4, 0, 0, 5], no(11, 2), || room(20)),
    ("transition destination bad", || room(20), &[8, 3, 0, 10, 4, 0, 0, 5], no(11, 4), || room(20)),
    ("both arguments bad", || room(20), &[11, 4, 0, 5, 0, 1, 4, 0, 4, 0, 0], no(11, 6), || room(20)),
    ("second argument and predicate bad", || room(20), &[11, 4, 0, 5, 0, 1, 0, 10, 4, 0, 4], no(11, 8), || room(20)),
    ("second argument g1", || room(20), &[11, 4, 0, 5, 0, 1, 0, 10, 128, 1, 0], no(11, 8), || room(20)),
    ("predicate 4", || room(20), &[11, 4, 0, 5, 0, 1, 0, 10, 0, 21, 4], no(11, 10), || room(20)),
    ("a roster without a list", || room(20), &[11, 4, 0, 5, 0, 1, 0, 10, 0, 21, 2], no(11, 10), || room(20)),
    ("a companion with a list", || room(20), &[13, 4, 0, 5, 0, 1, 0, 10, 0, 21, 3, 0, 7], no(11, 10), || room(20)),
    ("a separation with a list of a bad type", || room(20), &[13, 4, 0, 5, 0, 1, 0, 10, 0, 21, 1, 4, 0], no(11, 10), || room(20)),
    ("two listed types bad", || room(20), &[15, 4, 0, 5, 0, 1, 0, 10, 0, 21, 2, 4, 0, 4, 1], no(11, 11), || room(20)),
    ("the second listed type bad", || room(20), &[15, 4, 0, 5, 0, 1, 0, 10, 0, 21, 2, 0, 7, 4, 0], no(11, 13), || room(20)),
    ("equal members", || room(20), &[6, 1, 0, 7, 0, 7], no(11, 4), || room(20)),
    ("members 5, 3, 1024", || room(20), &[8, 1, 0, 5, 0, 3, 4, 0], no(11, 4), || room(20)),
    ("members 5, 1024, 3", || room(20), &[8, 1, 0, 5, 4, 0, 0, 3], no(11, 4), || room(20)),
    ("members 2000, 5", || room(20), &[6, 1, 7, 208, 0, 5], no(11, 2), || room(20)),
    ("a group among the members", || room(20), &[6, 1, 0, 5, 128, 0], no(11, 4), || room(20)),
    // A full section, then a short buffer.
    ("condition 34, no room", || room(0), &[11, 2, 0, 10, 0, 30, 0, 5, 0, 3, 34], no(11, 10), || room(0)),
    ("condition 34, a full section", full, &[11, 2, 0, 10, 0, 30, 0, 5, 0, 3, 34], no(11, 10), full),
    ("one byte too few", || room(10), ALLOW_10_30, no(13, 0), || room(10)),
    ("no room", || room(0), ALLOW_10_30, no(13, 0), || room(0)),
    ("a full section, no room", full, ALLOW_10_30, no(12, 0), full),
    ("a full section, with room", || roomy(full()), ALLOW_10_30, no(12, 0), || roomy(full())),
    ("a group, no room, where the rules are full", full, &[4, 1, 0, 7], no(13, 0), full),
    ("a group, where the rules are full", || roomy(full()), &[4, 1, 0, 100], Ok(0), || spent(many(1, 1024, 0), 4)),
    ("a rule, where the groups are full", || roomy(many(256, 0, 0)), RULE, Ok(0), || spent(many(256, 1, 0), 11)),
    ("rule 1,023", || roomy(many(0, 1023, 0)), RULE, Ok(1023), || spent(many(0, 1024, 0), 11)),
    ("group 255", || roomy(many(255, 0, 0)), &[4, 1, 1, 99], Ok(255), || spent(many(256, 0, 0), 4)),
    ("a 257th group", || roomy(many(256, 0, 0)), &[4, 1, 0, 7], no(12, 0), || roomy(many(256, 0, 0))),
    ("a 257th group, of 1024", || roomy(many(256, 0, 0)), &[4, 1, 4, 0], no(11, 2), || roomy(many(256, 0, 0))),
    ("constraint 255", || roomy(many(0, 0, 255)), BAN, Ok(255), || spent(many(0, 0, 256), 11)),
    ("a 257th constraint", || roomy(many(0, 0, 256)), BAN, no(12, 0), || roomy(many(0, 0, 256))),
    // The image's causes come first.
    ("a group that the image's length leaves out", left_out, ALLOW_10_30, no(5, 9), left_out),
    ("a buffer of 8 bytes", || SAMPLE[..8].to_vec(), ALLOW_10_30, no(1, 0), || SAMPLE[..8].to_vec()),
    ("version 2, no byte", || vec![2, 0, 9, 0, 0, 0, 0, 0, 0], &[], no(2, 0), || vec![2, 0, 9, 0, 0, 0, 0, 0, 0]),
    ("a length field below 9, no byte", || vec![1, 0, 8, 0, 0, 0, 0, 0, 0], &[], no(3, 0), || vec![1, 0, 8, 0, 0, 0, 0, 0, 0]),
    ("a length field beyond the buffer", || SAMPLE[..79].to_vec(), &[], no(3, 0), || SAMPLE[..79].to_vec()),
    ("257 groups, no byte", || vec![1, 0, 9, 1, 1, 0, 0, 0, 0], &[], no(4, 3), || vec![1, 0, 9, 1, 1, 0, 0, 0, 0]),
    ("a bad member, no byte", || BAD_MEMBER.to_vec(), &[], no(6, 11), || BAD_MEMBER.to_vec()),
    ("a byte after the last record, no byte", || vec![1, 0, 10, 0, 0, 0, 0, 0, 0, 0], &[], no(7, 9), || vec![1, 0, 10, 0, 0, 0, 0, 0, 0, 0]),
];

/// A policy of one group, of 1024, and a byte behind it.
const BAD_MEMBER: &[u8] = &[1, 0, 13, 0, 1, 0, 0, 0, 0, 4, 1, 4, 0, 9];

/// Allow 1 to 2, class 3, action 4, on.
const RULE: &[u8] = &[11, 2, 0, 1, 0, 2, 0, 3, 0, 4, 1];

/// Allow 10 to 30, class 5, action 3, while switch 0 is on; and while switch 31 is.
const SWITCH_0: &[u8] = &[11, 2, 0, 10, 0, 30, 0, 5, 0, 3, 2];
const SWITCH_31: &[u8] = &[11, 2, 0, 10, 0, 30, 0, 5, 0, 3, 33];

const BAN: &[u8] = &[11, 4, 0, 5, 0, 1, 0, 10, 0, 21, 0];

const ROSTER: &[u8] = &[15, 4, 0, 5, 0, 1, 0, 10, 0, 21, 2, 128, 0, 0, 9];

/// A group of one member, 1, which becomes group 1; and allow g1 to g0, class 5, action 3, on.
const GROUP_1: &[u8] = &[4, 1, 0, 1];
const RULE_OF_GROUP_1: &[u8] = &[11, 2, 128, 1, 128, 0, 0, 5, 0, 3, 1];

/// The rule, and 256 bytes more: its length byte is the lent length's low byte.
const RULE_AND_256: [u8; 267] = {
    let mut bytes = [0; 267];
    (bytes[0], bytes[1], bytes[3], bytes[5], bytes[7], bytes[9], bytes[10]) = (11, 2, 1, 2, 3, 4, 1);
    bytes
};

pub fn run(pair: &Pair, case: u64) -> Outcome {
    adds(pair, ROWS[case as usize])
}

pub fn adds(pair: &Pair, (what, buffer, record, answer, after): Row) -> Outcome {
    let subjects: [(&str, &dyn Subject); 2] = [("engine", pair.engine), ("model", &pair.model)];
    for (name, subject) in subjects {
        let mut buffer = buffer();
        equal(name, subject.add(&mut buffer, record), answer, || what.to_string())?;
        same_bytes(name, &buffer, &after(), || what.to_string())?;
    }
    Ok(())
}

/// The sample and so many bytes, each another than the one before.
pub fn room(bytes: usize) -> Vec<u8> {
    [&SAMPLE[..], &rest(bytes)].concat()
}

fn rest(bytes: usize) -> Vec<u8> {
    (0..bytes).map(|n| (n * 7 + 1) as u8).collect()
}

/// The sample with a record put in at a place, and the low byte of a count set. It takes up the first bytes of the room,
/// and so many are left.
pub fn grown(count_place: usize, count: u8, at: usize, record: &[u8], left: usize) -> Vec<u8> {
    let room = rest(record.len() + left);
    let mut bytes = [&SAMPLE[..at], record, &SAMPLE[at..], &room[record.len()..]].concat();
    bytes[2] = 80 + record.len() as u8;
    bytes[count_place + 1] = count;
    bytes
}

/// The sample with a group and then a rule put in, which take up 15 of the 18 bytes of room.
fn grown_by_both() -> Vec<u8> {
    let mut bytes = [&SAMPLE[..15], GROUP_1, &SAMPLE[15..56], RULE_OF_GROUP_1, &SAMPLE[56..], &rest(18)[15..]].concat();
    (bytes[2], bytes[4], bytes[6]) = (95, 2, 5);
    bytes
}

/// So many groups of one member, 100 and up, allow rules 1 to 2, class 3, action 4, on, and bans of class 5, action 1,
/// arguments 10 and 21.
pub fn many(groups: u16, rules: usize, constraints: usize) -> Vec<u8> {
    let (groups, rules) = (lone_groups(groups), vec![allow(1, 2, 3, 4, 1); rules]);
    Draft { groups, rules, constraints: vec![BAN.to_vec(); constraints] }.image()
}

fn full() -> Vec<u8> {
    many(0, 1024, 0)
}

/// An image and 20 bytes.
pub fn roomy(image: Vec<u8>) -> Vec<u8> {
    [image, rest(20)].concat()
}

/// An image that has taken up so many of the 20 bytes.
pub fn spent(image: Vec<u8>, bytes: usize) -> Vec<u8> {
    [image, rest(20)[bytes..].to_vec()].concat()
}

/// The empty policy's header with a group counted, and that group behind the image.
fn left_out() -> Vec<u8> {
    [&[1, 0, 9, 0, 1, 0, 0, 0, 0], &SAMPLE[9..]].concat()
}
