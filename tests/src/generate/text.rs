//! Random texts, most of them grammatical, and buffers to build in.

use super::alphabet::Alphabet;
use super::damage_text::damage_rows;
use super::groups::fresh_group;
use super::query::bad_type;
use crate::draft::{allow, constraint, group, transition};
use crate::random::Random;
use crate::text::row_of;

/// A text, damaged in half of the cases, and a buffer: the empty policy and the rows' records fit into it exactly, or
/// it is short or long.
pub fn build_case(seed: u64) -> (Vec<u8>, Vec<u8>) {
    let random = &mut Random::new(seed);
    let records = records(random);
    let mut rows: Vec<Vec<u8>> = records.iter().map(|record| row_of(record).into_bytes()).collect();
    if random.percent(50) {
        damage_rows(random, &mut rows);
    }
    let text = joined(random, &rows);
    let exact = 9 + records.iter().map(Vec::len).sum::<usize>();
    let length = match random.of(0..=9) {
        0 => random.of(0..=9),
        1 => exact - 1,
        2 => random.of(9..=exact),
        3 | 4 => exact,
        _ => exact + random.of(0..=300),
    };
    (text, random.bytes(length))
}

/// The program's input: such a text.
pub fn compile_case(seed: u64) -> Vec<u8> {
    build_case(seed).0
}

/// Records in any order, each most often valid where it stands: a few, or in one of thirty cases many.
fn records(random: &mut Random) -> Vec<Vec<u8>> {
    let alphabet = Alphabet::new(random);
    let count = if random.percent(3) { random.of(10..=60) } else { random.of(0..=8) };
    let mut groups = Vec::new();
    let mut records = Vec::new();
    for _ in 0..count {
        let record = record(random, &alphabet, &groups);
        groups.extend((record[1] == 1).then(|| record.clone()));
        records.push(record);
    }
    records
}

fn record(random: &mut Random, alphabet: &Alphabet, defined: &[Vec<u8>]) -> Vec<u8> {
    let groups = defined.len();
    match random.of(0..=39) {
        0 => long_group(random),
        1 => long_list(random, alphabet, groups),
        2 => bad_rule(random, alphabet, groups),
        3 => bad_limit(random, alphabet, groups),
        4 => bad_group(random),
        5 if groups > 0 => defined[random.of(0..=groups - 1)].clone(),
        5..=16 => any_group(random, alphabet, defined),
        17..=29 => alphabet.rule(random, groups),
        _ => alphabet.constraint(random, groups),
    }
}

/// A group that is not there yet, or a rule where all are.
fn any_group(random: &mut Random, alphabet: &Alphabet, defined: &[Vec<u8>]) -> Vec<u8> {
    fresh_group(random, alphabet, defined).unwrap_or_else(|| alphabet.rule(random, defined.len()))
}

/// A group of 63 to 66 members.
fn long_group(random: &mut Random) -> Vec<u8> {
    let (lowest, count) = (random.of(0..=1024 - 66) as u16, random.of(63..=66) as u16);
    group(&(lowest..lowest + count).collect::<Vec<u16>>())
}

/// A roster of 15 to 18 listed types.
fn long_list(random: &mut Random, alphabet: &Alphabet, groups: usize) -> Vec<u8> {
    let list: Vec<u16> = (0..random.of(15..=18)).map(|_| alphabet.type_field(random, groups)).collect();
    constraint(alphabet.class(random), alphabet.action(random), 1, 2, 2, &list)
}

/// A rule with a type that the policy has not, in one place or in two.
fn bad_rule(random: &mut Random, alphabet: &Alphabet, groups: usize) -> Vec<u8> {
    let bad = bad_type(random, groups);
    let good = alphabet.type_field(random, groups);
    match random.of(0..=3) {
        0 => allow(bad, good, alphabet.class(random), alphabet.action(random), 1),
        1 => allow(good, bad, alphabet.class(random), alphabet.action(random), 0),
        2 => transition(good, bad, alphabet.class(random)),
        _ => transition(bad, bad, alphabet.class(random)),
    }
}

/// A limit with a bad argument, a bad listed type, a bad predicate, or a list that does not suit it.
fn bad_limit(random: &mut Random, alphabet: &Alphabet, groups: usize) -> Vec<u8> {
    let bad = bad_type(random, groups);
    let good = alphabet.type_field(random, groups);
    let (class, action) = (alphabet.class(random), alphabet.action(random));
    match random.of(0..=5) {
        0 => constraint(class, action, bad, good, 0, &[]),
        1 => constraint(class, action, good, bad, 1, &[]),
        2 => constraint(class, action, good, good, 2, &[good, bad]),
        3 => constraint(class, action, good, good, random.pick(&[4, 5, 254, 255]), &[]),
        4 => constraint(class, action, good, good, 2, &[]),
        _ => constraint(class, action, good, good, random.pick(&[0, 1, 3, 4]), &[good]),
    }
}

/// A group with a member that does not rise or that is no basic type.
fn bad_group(random: &mut Random) -> Vec<u8> {
    let member = random.of(0..=1022) as u16;
    let bad = [member, member.saturating_sub(1), 1024, 32767];
    match random.of(0..=2) {
        0 => group(&[bad[2 + random.of(0..=1)]]),
        1 => group(&[member, random.pick(&bad), 1023]),
        _ => group(&[member, random.pick(&bad)]),
    }
}

/// The rows as a text: empty rows among them in one of four cases, and in one of three no line feed at the end.
fn joined(random: &mut Random, rows: &[Vec<u8>]) -> Vec<u8> {
    let empty = if random.percent(25) { 40 } else { 0 };
    let mut text = Vec::new();
    for row in rows {
        while random.percent(empty) {
            text.push(b'\n');
        }
        text.extend(row);
        text.push(b'\n');
    }
    if random.percent(33) {
        text.pop();
    }
    while random.percent(empty) {
        text.push(b'\n');
    }
    text
}
