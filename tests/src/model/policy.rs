//! A well-formed image with every type as the set of basic types that it stands for.

use super::bytes::{number, Records};
use super::fields::words;
use super::{Model, Slip};
use mungaite::{Query, Section};
use std::collections::BTreeSet;

pub type Set = BTreeSet<u16>;

pub fn within(inner: &Set, outer: &Set) -> bool {
    inner.is_subset(outer)
}

pub fn touches(one: &Set, other: &Set) -> bool {
    !one.is_disjoint(other)
}

/// The members of a group record.
pub fn members(group: &[u8]) -> Set {
    words(group, 2).map(|at| number(group, at)).collect()
}

pub struct Policy {
    pub groups: Vec<Set>,
    pub rules: Vec<Rule>,
    pub constraints: Vec<Constraint>,
}

pub struct Rule {
    pub source: Set,
    pub destination: Set,
    pub class: u16,
    /// What an allow rule has and a transition has not.
    pub allow: Option<Allow>,
    /// The types as they are written. Only a mistaken model looks at them.
    pub source_field: u16,
    pub destination_field: u16,
}

pub struct Allow {
    pub action: u16,
    pub condition: u8,
}

pub struct Constraint {
    pub class: u16,
    pub action: u16,
    pub first: Set,
    pub second: Set,
    pub predicate: u8,
    pub list: Vec<Set>,
    /// The same group is both arguments. Only a mistaken model looks at it.
    pub one_argument: bool,
}

/// A query with its types as sets.
pub struct Request {
    pub source: Set,
    pub destination: Set,
    pub class: u16,
    pub action: u16,
    pub switches: u32,
}

impl Model {
    /// The policy of well-formed records.
    pub fn policy(self, records: &Records) -> Policy {
        let mut policy = Policy { groups: Vec::new(), rules: Vec::new(), constraints: Vec::new() };
        for record in records.of(Section::Groups) {
            let mut members = members(record);
            match self.slip {
                Some(Slip::LastMemberLost) if members.len() > 1 => drop(members.pop_last()),
                Some(Slip::FirstMemberLost) if members.len() > 1 => drop(members.pop_first()),
                _ => {}
            }
            policy.groups.push(members);
        }
        policy.rules = records.of(Section::Rules).iter().map(|record| policy.rule(record)).collect();
        policy.constraints = records.of(Section::Constraints).iter().map(|record| policy.constraint(record)).collect();
        policy
    }
}

impl Policy {
    fn set(&self, field: u16) -> Set {
        if field < 32768 {
            Set::from([field])
        } else {
            self.groups.get(usize::from(field - 32768)).cloned().unwrap_or_default()
        }
    }

    fn rule(&self, record: &[u8]) -> Rule {
        Rule {
            source: self.set(number(record, 2)),
            destination: self.set(number(record, 4)),
            class: number(record, 6),
            allow: (record[1] == 2).then(|| Allow { action: number(record, 8), condition: record[10] }),
            source_field: number(record, 2),
            destination_field: number(record, 4),
        }
    }

    fn constraint(&self, record: &[u8]) -> Constraint {
        Constraint {
            class: number(record, 2),
            action: number(record, 4),
            first: self.set(number(record, 6)),
            second: self.set(number(record, 8)),
            predicate: record[10],
            list: words(record, 11).map(|at| self.set(number(record, at))).collect(),
            one_argument: number(record, 6) == number(record, 8),
        }
    }

    pub fn request(&self, query: Query) -> Request {
        Request {
            source: self.set(query.source),
            destination: self.set(query.destination),
            class: query.class,
            action: query.action,
            switches: query.switches,
        }
    }
}
