//! One record, in an image or lent to be added: its shape and its fields.

use crate::format::{is_type, BASIC_TYPES, CONSTRAINTS, GROUPS, RULES};
use crate::groups::{numbers, pairs};

pub const GROUP: u8 = 1;
pub const ALLOW: u8 = 2;
pub const TRANSITION: u8 = 3;
pub const CONSTRAINT: u8 = 4;

/// The condition of the last switch.
const MOST_CONDITION: u8 = 33;

pub const BAN: u8 = 0;
pub const SEPARATION: u8 = 1;
pub const ROSTER: u8 = 2;
pub const COMPANION: u8 = 3;

/// The section of a kind whose records may have this length.
#[inline]
pub fn section_of(length: u8, kind: u8) -> Option<usize> {
    match (kind, length) {
        (GROUP, 4..=130) if length.is_multiple_of(2) => Some(GROUPS),
        (ALLOW, 11) | (TRANSITION, 8) => Some(RULES),
        (CONSTRAINT, 11..=43) if !length.is_multiple_of(2) => Some(CONSTRAINTS),
        _ => None,
    }
}

/// The place, in a record of a right shape, of the first field that breaks its rule.
#[inline]
pub fn bad_field(record: &[u8], groups: u16) -> Option<usize> {
    let types = |at: usize, fields: &[u8]| {
        let bad = numbers(pairs(fields)).position(|field| !is_type(field, groups))?;
        Some(at + 2 * bad)
    };
    let (kind, fields) = (record[1], &record[2..]);
    match kind {
        GROUP => Some(2 + 2 * bad_member(pairs(fields))?),
        ALLOW => types(2, &fields[..4]).or((record[10] > MOST_CONDITION).then_some(10)),
        TRANSITION => types(2, &fields[..4]),
        _ => types(6, &record[6..10])
            .or((!list_suits(record[10], &record[11..])).then_some(10))
            .or_else(|| types(11, &record[11..])),
    }
}

/// Members are basic types and rise strictly. All are tested without a branch; only a bad group is searched for the
/// member.
fn bad_member(members: &[[u8; 2]]) -> Option<usize> {
    let (last, before) = members.split_last()?;
    let rises = numbers(before).zip(numbers(&members[1..])).fold(true, |rises, (member, next)| rises & (member < next));
    if rises && u16::from_be_bytes(*last) < BASIC_TYPES {
        return None;
    }
    first_bad_member(members)
}

#[cold]
fn first_bad_member(members: &[[u8; 2]]) -> Option<usize> {
    let mut before = None;
    numbers(members).position(|member| before.replace(member) >= Some(member) || member >= BASIC_TYPES)
}

/// Whether the predicate is known and takes such a list.
fn list_suits(predicate: u8, list: &[u8]) -> bool {
    match predicate {
        ROSTER => !list.is_empty(),
        BAN | SEPARATION | COMPANION => list.is_empty(),
        _ => false,
    }
}
