//! A policy and a second one that holds it, with a query on each: the terms of the order rule.

use super::alphabet::Alphabet;
use super::groups::fresh_group;
use super::policy::policy;
use super::query::{members, valid_query};
use crate::draft::{Draft, COMPANION};
use crate::random::Random;
use mungaite::Query;

pub struct HeldPair {
    pub first: Vec<u8>,
    pub first_query: Query,
    pub second: Vec<u8>,
    pub second_query: Query,
}

/// A term about the words that a pair can be made without.
#[derive(Clone, Copy, Debug, PartialEq, Eq)]
pub enum Term {
    /// Every switch of the first query is on in the second.
    SwitchesKept,
    /// Where the first policy has a companion constraint, the words are equal.
    EqualWords,
}

pub fn pair_case(seed: u64) -> HeldPair {
    pair(seed, None)
}

/// A pair that meets all terms but one.
pub fn pair_without(term: Term, seed: u64) -> HeldPair {
    pair(seed, Some(term))
}

fn pair(seed: u64, without: Option<Term>) -> HeldPair {
    let random = &mut Random::new(seed);
    let alphabet = Alphabet::new(random);
    let first = policy(random, &alphabet);
    let second = holder(random, &alphabet, &first);
    let first_query = valid_query(random, &alphabet, &first);
    let word = first_query.switches;
    let switches = match without {
        None | Some(Term::SwitchesKept) if has_companion(&first) => word,
        Some(Term::SwitchesKept) => alphabet.word(random),
        _ if random.percent(30) => word,
        _ => word | alphabet.word(random),
    };
    let second_query = Query {
        source: type_within(random, &second, &members(&first, first_query.source)),
        destination: type_within(random, &second, &members(&first, first_query.destination)),
        switches,
        ..first_query
    };
    HeldPair { first: first.image(), first_query, second: second.image(), second_query }
}

fn has_companion(draft: &Draft) -> bool {
    draft.constraints.iter().any(|constraint| constraint[10] == COMPANION)
}

/// A policy that holds another's groups under their old numbers, and its rules and constraints at any number. If the
/// other has a companion constraint, both hold the same rules.
fn holder(random: &mut Random, alphabet: &Alphabet, held: &Draft) -> Draft {
    let mut holder = held.clone();
    for _ in 0..random.of(0..=2) {
        let group = fresh_group(random, alphabet, &holder.groups);
        holder.groups.extend(group);
    }
    holder.groups.truncate(256);
    let groups = holder.groups.len();
    let companion = has_companion(held);
    for _ in 0..random.of(0..=3) {
        if !companion {
            holder.rules.push(alphabet.rule(random, groups));
        } else if !held.rules.is_empty() {
            holder.rules.push(held.rules[random.of(0..=held.rules.len() - 1)].clone());
        }
        holder.constraints.push(alphabet.constraint(random, groups));
    }
    for (records, limit) in [(&mut holder.rules, 1024), (&mut holder.constraints, 256)] {
        records.truncate(limit);
        random.shuffle(records);
        if random.percent(30) {
            drop_copies(records);
        }
    }
    holder
}

/// Of equal records keeps one.
fn drop_copies(records: &mut Vec<Vec<u8>>) {
    let mut kept: Vec<Vec<u8>> = Vec::new();
    for record in records.drain(..) {
        if !kept.contains(&record) {
            kept.push(record);
        }
    }
    *records = kept;
}

/// A type whose set is within these basic types.
fn type_within(random: &mut Random, draft: &Draft, outer: &[u16]) -> u16 {
    let groups = (0..draft.groups.len() as u16).map(mungaite::group);
    let inside: Vec<u16> =
        groups.filter(|&group| members(draft, group).iter().all(|member| outer.contains(member))).collect();
    if inside.is_empty() || random.percent(40) {
        random.pick(outer)
    } else {
        random.pick(&inside)
    }
}
