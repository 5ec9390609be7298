//! What a separation asks of the rules. The query is 1 to 2, covered by rule 0, and the separation concerns it. Rule 0 is
//! live: it reaches 2 from 1.

use super::predicates::{self, Row};
use super::small::*;
use crate::compare::{Outcome, Pair};
use crate::draft::allow;

/// 64 members: 100, 102 and so on to 226, and 101, 103 and so on to 227.
const EVEN: [u16; 64] = by_twos(100);
const ODD: [u16; 64] = by_twos(101);

#[rustfmt::skip]
pub const ROWS: &[Row] = &[
    ("nothing reaches the first", &[], || vec![], || separation(1, 2), true),
    ("nothing reaches the second from there", &[], || vec![other(9, 1)], || separation(1, 2), true),
    ("a source reaches both", &[], || vec![other(9, 1), other(9, 2)], || separation(1, 2), false),
    ("a source reaches both, the second first", &[], || vec![other(9, 2), other(9, 1)], || separation(1, 2), false),
    ("rule 0 is one of the two", &[], || vec![other(1, 1)], || separation(1, 2), false),
    ("two sources", &[], || vec![other(8, 1), other(9, 2)], || separation(1, 2), true),
    ("one source to others", &[], || vec![other(9, 3), other(9, 4)], || separation(1, 2), true),
    ("from the arguments, not to them", &[], || vec![other(1, 9), other(2, 9)], || separation(1, 2), true),
    ("of another class alone", &[], || vec![on(9, 1), allow(9, 2, 7, 1, 1)], || separation(1, 2), false),
    ("of another action alone", &[], || vec![on(9, 1), allow(9, 2, 5, 7, 1)], || separation(1, 2), false),
    ("the rule to the first is off", &[], || vec![off(9, 1), other(9, 2)], || separation(1, 2), true),
    ("the rule to the second is off", &[], || vec![other(9, 1), off(9, 2)], || separation(1, 2), true),
    ("a transition to the first", &[], || vec![trans(9, 1), other(9, 2)], || separation(1, 2), true),
    ("a transition to the second", &[], || vec![other(9, 1), trans(9, 2)], || separation(1, 2), true),
    ("the same argument twice", &[&[1, 2]], || vec![], || separation(G0, G0), false),
    ("the last of 1,024 rules", &[], || [vec![other(9, 1); 1022], vec![other(9, 2)]].concat(), || separation(1, 2), false),
    ("the second and the last of 1,024 rules", &[], || [vec![other(9, 1)], vec![other(8, 3); 1021], vec![other(9, 2)]].concat(), || separation(1, 2), false),
    ("1,024 rules, the last from another", &[], || [vec![other(9, 1); 1022], vec![other(8, 2)]].concat(), || separation(1, 2), true),
    // Touching.
    ("one rule reaches both", &[&[1, 2]], || vec![other(9, G0)], || separation(1, 2), false),
    ("one rule reaches both, from a group", &[&[1, 2], &[8, 9]], || vec![other(G1, G0)], || separation(1, 2), false),
    ("one rule reaches both and is off", &[&[1, 2]], || vec![off(9, G0)], || separation(1, 2), true),
    ("a transition reaches both", &[&[1, 2]], || vec![trans(9, G0)], || separation(1, 2), true),
    ("groups that touch the arguments", &[&[1, 5], &[2, 6]], || vec![other(9, G0), other(9, G1)], || separation(1, 2), false),
    ("arguments that are groups", &[&[1, 3], &[2, 4]], || vec![other(9, 3), other(9, 4)], || separation(G0, G1), false),
    ("a group beside the arguments", &[&[5, 6]], || vec![other(9, G0), other(9, 1)], || separation(1, 2), true),
    // A type and a group.
    ("20 and 21, then 20", &[&[20, 21]], || vec![other(G0, 1), other(20, 2)], || separation(1, 2), false),
    ("20, then 20 and 21", &[&[20, 21]], || vec![other(20, 1), other(G0, 2)], || separation(1, 2), false),
    ("20 and 21, then 21", &[&[20, 21]], || vec![other(G0, 1), other(21, 2)], || separation(1, 2), false),
    ("20, then 21", &[], || vec![other(20, 1), other(21, 2)], || separation(1, 2), true),
    ("20 and 21, then 22", &[&[20, 21]], || vec![other(G0, 1), other(22, 2)], || separation(1, 2), true),
    ("20 and 22, then 21", &[&[20, 22]], || vec![other(G0, 1), other(21, 2)], || separation(1, 2), true),
    ("the group's rule is off", &[&[20, 21]], || vec![off(G0, 1), other(20, 2)], || separation(1, 2), true),
    ("the group's rule is a transition", &[&[20, 21]], || vec![other(20, 1), trans(G0, 2)], || separation(1, 2), true),
    ("the group's rule is of another class", &[&[20, 21]], || vec![on(20, 1), allow(G0, 2, 7, 1, 1)], || separation(1, 2), false),
    ("the group's rule is of another action", &[&[20, 21]], || vec![allow(G0, 1, 5, 7, 1), on(20, 2)], || separation(1, 2), false),
    ("a group of rule 0's source", &[&[1, 9]], || vec![other(G0, 1)], || separation(1, 2), false),
    ("a type and a group of it", &[&[9]], || vec![other(9, 1), other(G0, 2)], || separation(1, 2), false),
    ("a group of a type, and the type", &[&[9]], || vec![other(G0, 1), other(9, 2)], || separation(1, 2), false),
    ("a type and a group of another", &[&[8]], || vec![other(9, 1), other(G0, 2)], || separation(1, 2), true),
    ("the first of 64", &[&EVEN], || vec![other(G0, 1), other(100, 2)], || separation(1, 2), false),
    ("the last of 64", &[&EVEN], || vec![other(226, 1), other(G0, 2)], || separation(1, 2), false),
    ("between two of 64", &[&EVEN], || vec![other(G0, 1), other(225, 2)], || separation(1, 2), true),
    ("past the last of 64", &[&EVEN], || vec![other(228, 1), other(G0, 2)], || separation(1, 2), true),
    ("type 0", &[&[0, 9]], || vec![other(0, 1), other(G0, 2)], || separation(1, 2), false),
    ("type 1023", &[&[9, 1023]], || vec![other(G0, 1), other(1023, 2)], || separation(1, 2), false),
    ("265 for 9", &[&[8, 9]], || vec![other(G0, 1), other(265, 2)], || separation(1, 2), true),
    ("73 for 9", &[&[8, 9]], || vec![other(73, 1), other(G0, 2)], || separation(1, 2), true),
    // Two groups.
    ("the same group", &[&[8, 9]], || vec![other(G0, 1), other(G0, 2)], || separation(1, 2), false),
    ("groups that share the first", &[&[7, 8], &[7, 9]], || vec![other(G0, 1), other(G1, 2)], || separation(1, 2), false),
    ("groups that share the last", &[&[7, 9], &[8, 9]], || vec![other(G0, 1), other(G1, 2)], || separation(1, 2), false),
    ("groups that share one between others", &[&[6, 8, 11], &[7, 8, 10]], || vec![other(G0, 1), other(G1, 2)], || separation(1, 2), false),
    ("the last of one is the first of the other", &[&[8, 9], &[9, 10]], || vec![other(G0, 1), other(G1, 2)], || separation(1, 2), false),
    ("the first of one is the last of the other", &[&[9, 10], &[8, 9]], || vec![other(G0, 1), other(G1, 2)], || separation(1, 2), false),
    ("groups that start alike", &[&[8, 9], &[8, 9, 10]], || vec![other(G0, 1), other(G1, 2)], || separation(1, 2), false),
    ("groups that end alike", &[&[8, 9, 10], &[9, 10]], || vec![other(G0, 1), other(G1, 2)], || separation(1, 2), false),
    ("groups that differ in the last", &[&[7, 8, 9], &[7, 8, 10]], || vec![other(G0, 1), other(G1, 2)], || separation(1, 2), false),
    ("groups that differ in the first", &[&[6, 8, 9], &[7, 8, 9]], || vec![other(G0, 1), other(G1, 2)], || separation(1, 2), false),
    ("groups that share nothing", &[&[8, 9], &[10, 11]], || vec![other(G0, 1), other(G1, 2)], || separation(1, 2), true),
    ("groups whose members take turns", &[&[7, 9, 11], &[8, 10, 12]], || vec![other(G0, 1), other(G1, 2)], || separation(1, 2), true),
    ("64 and 64 whose members take turns", &[&EVEN, &ODD], || vec![other(G0, 1), other(G1, 2)], || separation(1, 2), true),
    // Some basic type, of any rule to the first and any rule to the second.
    ("the last of several on either side", &[&[7, 8], &[8, 10]], || vec![other(6, 1), other(9, 2), other(G0, 1), other(G1, 2)], || separation(1, 2), false),
    ("shared with a rule to neither", &[&[8, 9]], || vec![other(8, 1), other(9, 2), other(G0, 3)], || separation(1, 2), true),
    ("shared by two rules to the first", &[&[8, 9]], || vec![other(8, 1), other(G0, 1), other(10, 2)], || separation(1, 2), true),
    ("shared by two rules to the second", &[&[9, 10]], || vec![other(8, 1), other(9, 2), other(G0, 2)], || separation(1, 2), true),
    ("not passed on by a third group", &[&[8, 9], &[9, 10], &[10, 11]], || vec![other(G0, 1), other(G1, 3), other(G2, 2)], || separation(1, 2), true),
    ("each from an argument to itself", &[&[1, 3], &[2, 4]], || vec![other(3, 3), other(4, 4)], || separation(G0, G1), true),
    // What is known of a group for one argument says nothing for the other.
    ("a group that reaches the second alone", &[&[2, 5]], || vec![other(9, G0)], || separation(1, 2), true),
    ("a group that reaches the first alone", &[&[1, 5]], || vec![other(9, G0), other(9, 2)], || separation(1, 2), false),
];

pub fn run(pair: &Pair, case: u64) -> Outcome {
    predicates::run(ROWS[case as usize], pair)
}

const fn by_twos(first: u16) -> [u16; 64] {
    let mut members = [first; 64];
    let mut n = 1;
    while n < 64 {
        members[n] = members[n - 1] + 2;
        n += 1;
    }
    members
}
