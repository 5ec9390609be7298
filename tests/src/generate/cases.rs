//! The inputs of each call, from the seed of a case.

use super::alphabet::Alphabet;
use super::damage::{damage_image, damage_record};
use super::groups::{add_twins, fresh_group, full_groups};
use super::policy::policy;
use super::query::{concerned_query, query};
use crate::draft::{group, Draft};
use crate::random::Random;
use crate::sample::under;
use mungaite::{Query, Section};

/// An accepted policy.
pub fn policy_case(seed: u64) -> Draft {
    let random = &mut Random::new(seed);
    let alphabet = Alphabet::new(random);
    policy(random, &alphabet)
}

/// An image, damaged in four of five cases.
pub fn check_case(seed: u64) -> Vec<u8> {
    let random = &mut Random::new(seed);
    let alphabet = Alphabet::new(random);
    let draft = policy(random, &alphabet);
    image(random, &draft, 80)
}

/// An image and a record's number, in one of four cases just past the last.
pub fn record_case(seed: u64) -> (Vec<u8>, Section, u16) {
    let random = &mut Random::new(seed);
    let alphabet = Alphabet::new(random);
    let draft = policy(random, &alphabet);
    let section = random.pick(&Section::ALL);
    let count = draft.of(section).len();
    let n = match random.of(0..=3) {
        0 => count,
        1 if random.percent(20) => random.pick(&[255, 256, 1023, 1024, 65535]),
        _ => random.of(0..=count.max(1) - 1),
    };
    (image(random, &draft, 20), section, n as u16)
}

/// An accepted policy and some queries.
pub fn draft_case(seed: u64) -> (Draft, Vec<Query>) {
    policy_and_queries(&mut Random::new(seed))
}

/// An image, seldom damaged, and some queries.
pub fn decide_case(seed: u64) -> (Vec<u8>, Vec<Query>) {
    let random = &mut Random::new(seed);
    let (draft, queries) = policy_and_queries(random);
    (image(random, &draft, 10), queries)
}

/// An image, seldom damaged, the rows of a run, and how many slots are lent.
pub fn run_case(seed: u64) -> (Vec<u8>, Vec<Query>, usize) {
    let random = &mut Random::new(seed);
    let alphabet = Alphabet::new(random);
    let draft = policy(random, &alphabet);
    let count = match random.of(0..=19) {
        0 => 0,
        1 | 2 => random.pick(&[63, 64, 64, 65, 66]),
        3 => random.of(1..=64),
        _ => random.of(1..=6),
    };
    let queries = rows(random, &alphabet, &draft, count);
    let slots = match random.of(0..=9) {
        0 => random.pick(&[0, 1, 64, 65, count.saturating_sub(1), count + 1]),
        _ => count,
    };
    (image(random, &draft, 10), queries, slots)
}

/// So many queries, in half of the cases under two or three words alone: each another, or one again and again, under its
/// word or under others.
fn rows(random: &mut Random, alphabet: &Alphabet, draft: &Draft, count: usize) -> Vec<Query> {
    let mut queries: Vec<Query> = (0..count).map(|_| query(random, alphabet, draft)).collect();
    let Some((&first, &last)) = queries.first().zip(queries.last()) else {
        return queries;
    };
    let mut words = vec![first.switches, if random.percent(50) { last.switches } else { !first.switches }];
    if random.percent(50) {
        words.push(alphabet.word(random));
    }
    if random.percent(50) {
        queries.iter_mut().for_each(|query| query.switches = random.pick(&words));
    }
    match random.of(0..=9) {
        // what a row gets changes with its word, and comes back with it
        0..=2 => {
            let in_turn = random.percent(50);
            let asked = if draft.constraints.is_empty() { first } else { concerned_query(random, draft) };
            for (row, query) in queries.iter_mut().enumerate() {
                *query = under(if in_turn { words[row % words.len()] } else { query.switches }, asked);
            }
        }
        // long runs are fit, or not by one row
        again if again < 6 || count >= 60 => {
            queries.fill(first);
            queries[random.of(0..=count - 1)] = if random.percent(50) { last } else { first };
        }
        _ => {}
    }
    queries
}

/// A buffer that starts with an image, and a record to add: a group where there are 256 of them, as in one of a hundred
/// cases.
pub fn add_case(seed: u64) -> (Vec<u8>, Vec<u8>) {
    let random = &mut Random::new(seed);
    let alphabet = Alphabet::new(random);
    let mut draft = policy(random, &alphabet);
    if random.percent(1) {
        full_groups(random, &mut draft.groups);
    }
    let groups = draft.groups.len();
    let kind = if groups == 256 { 0 } else { random.of(0..=2) };
    let mut record = match kind {
        0 => added_group(random, &alphabet, &draft),
        1 => alphabet.rule(random, groups),
        _ => alphabet.constraint(random, groups),
    };
    if random.percent(40) {
        damage_record(random, &mut record, groups);
    }
    let mut buffer = image(random, &draft, 12);
    let room = match random.of(0..=5) {
        0 => 0,
        1 => record.len().saturating_sub(1),
        2 => record.len(),
        _ => random.of(0..=200),
    };
    buffer.extend(random.bytes(room));
    if random.percent(3) {
        buffer.truncate(random.of(0..=buffer.len()));
    }
    (buffer, record)
}

/// A group to be added: in one of four cases, or of two where there are 256, a twin of one that is there.
fn added_group(random: &mut Random, alphabet: &Alphabet, draft: &Draft) -> Vec<u8> {
    match draft.groups.len() {
        count @ 1.. if random.percent(if count == 256 { 50 } else { 25 }) => {
            draft.groups[random.of(0..=count - 1)].clone()
        }
        _ => fresh_group(random, alphabet, &draft.groups).unwrap_or(group(&[3, 998])),
    }
}

/// The program's input: an image, seldom damaged, queries, and sometimes a few bytes more.
pub fn permit_case(seed: u64) -> Vec<u8> {
    let random = &mut Random::new(seed);
    let alphabet = Alphabet::new(random);
    let draft = policy(random, &alphabet);
    let mut input = image(random, &draft, 30);
    let count = random.of(0..=20);
    input.extend(rows(random, &alphabet, &draft, count).into_iter().flat_map(Query::to_bytes));
    if random.percent(30) {
        let left = random.of(1..=11);
        input.extend(random.bytes(left));
    }
    input
}

fn policy_and_queries(random: &mut Random) -> (Draft, Vec<Query>) {
    let alphabet = Alphabet::new(random);
    let draft = policy(random, &alphabet);
    let queries = (0..6).map(|_| query(random, &alphabet, &draft)).collect();
    (draft, queries)
}

/// The policy's image, in so many of a hundred cases damaged, and in one of twenty with twins.
fn image(random: &mut Random, draft: &Draft, damaged_percent: usize) -> Vec<u8> {
    let mut draft = draft.clone();
    if random.percent(5) && !draft.groups.is_empty() {
        add_twins(random, &mut draft.groups);
    }
    let mut image = draft.image();
    if random.percent(damaged_percent) {
        damage_image(random, &mut image);
    }
    image
}
