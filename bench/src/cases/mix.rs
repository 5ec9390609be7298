//! A policy of any size with queries that are made from some of its rules.

use super::asked::{mixed, stopped, Asked, Kind, Pair, Types};
use crate::contest::Case;
use mungaite::Query;
use mungaite_tests::draft::{allow, constraint, transition, Draft, BAN, COMPANION, ROSTER, SEPARATION};

pub struct Size {
    pub groups: u16,
    pub members: u16,
    pub rules: u16,
    pub constraints: u16,
}

/// Sources are basic types from 0 on, destinations from here on.
const DESTINATIONS: u16 = 512;

/// The first groups of sources hold all sources between them.
const PARTITION: u16 = 8;

const PREDICATES: [u8; 4] = [SEPARATION, ROSTER, COMPANION, BAN];

impl Size {
    pub fn case(&self, name: &str) -> Case {
        self.case_of(name, mixed)
    }

    /// The same policy and queries, and more that its rules stop at one step or another.
    pub fn stopped(&self, name: &str) -> Case {
        self.case_of(name, |rules, types| [mixed(rules, types), stopped(rules, types)].concat())
    }

    fn case_of(&self, name: &str, queries: fn(&[Asked], &Types) -> Vec<Query>) -> Case {
        let mut policy = Draft::default();
        let types = self.add_groups(&mut policy);
        let rules: Vec<Asked> =
            (0..usize::from(self.rules)).map(|rule| (self.rule_types(rule, &types), kind_of(rule))).collect();
        let asked = self.asked_rules();
        add_rules(&mut policy, &rules, &types);
        self.add_constraints(&mut policy, &asked, &rules, &types);
        let queries = queries(&asked.map(|rule| rules[rule]), &types);
        Case { name: name.to_string(), image: policy.image(), queries }
    }

    /// One of four is about a rule that queries are made from.
    fn add_constraints(&self, policy: &mut Draft, asked: &[usize], rules: &[Asked], types: &Types) {
        for number in 0..usize::from(self.constraints) {
            let about = match number % 4 {
                0 => asked[number / 4 % asked.len()],
                _ => number * 37 % rules.len(),
            };
            let other = rules[number * 11 % rules.len()].0;
            let (pair, kind) = rules[about];
            let predicate = PREDICATES[(number / 4 + number) % 4];
            let second = if predicate == BAN { other.1 } else { pair.1 };
            let list = if predicate == ROSTER { types.list() } else { Vec::new() };
            policy.constraints.push(constraint(kind.0, kind.1, pair.0, second, predicate, &list));
        }
    }

    /// Groups of sources and groups of destinations in turn.
    fn add_groups(&self, policy: &mut Draft) -> Types {
        let mut types = Types::default();
        for pair in 0..self.groups / 2 {
            let members = self.members_of(pair);
            let source = policy.add_group(members.iter().copied());
            types.sources.push((source, members[0]));
            let members = self.members_of(pair + 3).into_iter();
            let members: Vec<u16> = members.map(|member| member + DESTINATIONS).collect();
            let destination = policy.add_group(members.iter().copied());
            types.destinations.push((destination, members[0]));
        }
        types
    }

    /// Runs of neighbours first, then members spread by odd strides.
    fn members_of(&self, group: u16) -> Vec<u16> {
        let zone = PARTITION * self.members;
        let stride = if group < PARTITION { 1 } else { 2 * group + 1 };
        let start = if group < PARTITION { group * self.members } else { group * 29 };
        let mut members: Vec<u16> = (0..self.members).map(|member| (start + member * stride) % zone).collect();
        members.sort_unstable();
        members
    }

    /// Two of three sources and three of four destinations are groups.
    fn rule_types(&self, rule: usize, types: &Types) -> Pair {
        let source = types.sources[(rule * 5 + rule / 32) % types.sources.len()];
        let place = (rule * 3 + rule / 16) % types.destinations.len();
        let destination = types.destinations[place];
        (
            if rule.is_multiple_of(3) { source.1 } else { source.0 },
            if rule.is_multiple_of(4) { destination.1 } else { destination.0 },
        )
    }

    /// The rules that the covered queries are made from: the first, some in the middle and the last.
    fn asked_rules(&self) -> [usize; 9] {
        let last = usize::from(self.rules) - 2;
        let middle = last / 2;
        [0, 1, 2, 3, middle, middle + 2, last - 2, last - 1, last]
    }
}

/// One of ten is off, one a transition; the last leads back from a destination to a source, for companions.
fn add_rules(policy: &mut Draft, rules: &[Asked], types: &Types) {
    for (number, &(pair, kind)) in rules.iter().enumerate() {
        let rule = |types: Pair, on: u8| allow(types.0, types.1, kind.0, kind.1, on);
        policy.rules.push(match number % 10 {
            _ if number + 1 == rules.len() => rule((types.destinations[0].0, types.sources[0].0), 1),
            4 => rule(pair, 0),
            9 => transition(types.sources[number % 7].1, pair.1, kind.0),
            _ => rule(pair, 1),
        });
    }
}

/// 32 classes with actions, in turn.
fn kind_of(rule: usize) -> Kind {
    ((rule % 8) as u16, (rule / 8 % 4) as u16)
}
