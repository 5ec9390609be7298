//! Random queries on a policy.

use super::alphabet::Alphabet;
use crate::draft::Draft;
use crate::random::Random;
use mungaite::Query;

/// A query, most often one that a rule covers or a constraint concerns; in one of twelve cases no valid one.
pub fn query(random: &mut Random, alphabet: &Alphabet, draft: &Draft) -> Query {
    let mut query = valid_query(random, alphabet, draft);
    if random.percent(8) {
        let bad = bad_type(random, draft.groups.len());
        match random.of(0..=2) {
            0 => query.source = bad,
            1 => query.destination = bad,
            _ => (query.source, query.destination) = (bad, bad_type(random, draft.groups.len())),
        }
    }
    query
}

/// A query whose types are valid.
pub fn valid_query(random: &mut Random, alphabet: &Alphabet, draft: &Draft) -> Query {
    let groups = draft.groups.len();
    let mut query = Query {
        source: alphabet.type_field(random, groups),
        destination: alphabet.type_field(random, groups),
        class: alphabet.class(random),
        action: alphabet.action(random),
        switches: alphabet.word(random),
    };
    if !draft.rules.is_empty() && random.percent(40) {
        let rule = &draft.rules[random.of(0..=draft.rules.len() - 1)];
        (query.source, query.destination, query.class) = (field(rule, 2), field(rule, 4), field(rule, 6));
        if rule[1] == 2 {
            query.action = field(rule, 8);
        }
    } else if !draft.constraints.is_empty() && random.percent(50) {
        query = Query { switches: query.switches, ..concerned_query(random, draft) };
    }
    if random.percent(30) {
        query.source = part(random, draft, query.source);
    }
    if random.percent(30) {
        query.destination = part(random, draft, query.destination);
    }
    query
}

/// The query of a constraint's class, action and arguments, in half of the cases the first one's. There must be one.
pub fn concerned_query(random: &mut Random, draft: &Draft) -> Query {
    let last = draft.constraints.len() - 1;
    let constraint = &draft.constraints[if random.percent(50) { 0 } else { random.of(0..=last) }];
    let [class, action, first, second] = [2, 4, 6, 8].map(|at| field(constraint, at));
    Query::new(first, second, class, action)
}

/// A type field that no policy with so many groups has.
pub fn bad_type(random: &mut Random, groups: usize) -> u16 {
    let first_bad_group = mungaite::group(groups as u16);
    random.pick(&[1024, 1025, 1279, 2048, 32767, first_bad_group, first_bad_group + 1, 65535])
}

/// The basic types that a valid field stands for.
pub fn members(draft: &Draft, type_field: u16) -> Vec<u16> {
    if type_field < mungaite::group(0) {
        return vec![type_field];
    }
    let group = &draft.groups[usize::from(type_field - mungaite::group(0))];
    (2..group.len()).step_by(2).map(|at| field(group, at)).collect()
}

/// A member of a type.
fn part(random: &mut Random, draft: &Draft, type_field: u16) -> u16 {
    random.pick(&members(draft, type_field))
}

fn field(record: &[u8], at: usize) -> u16 {
    u16::from_be_bytes([record[at], record[at + 1]])
}
