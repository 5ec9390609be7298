//! Random images from the time when twins were accepted, and buffers to convert them in.

use super::alphabet::Alphabet;
use super::damage::damage_image;
use super::groups::full_groups;
use super::policy::policy;
use super::query::valid_query;
use crate::draft::Draft;
use crate::random::Random;
use mungaite::Query;

/// An old policy, well formed, and the queries of its records: each with a class, an action and a word.
pub struct OldCase {
    pub draft: Draft,
    pub queries: Vec<Query>,
    /// Basic types that may be in its groups.
    pub basics: [u16; 3],
}

/// A policy with many twins, in one of eight cases with none.
pub fn old_case(seed: u64) -> OldCase {
    let random = &mut Random::new(seed);
    let alphabet = Alphabet::new(random);
    let draft = old_policy(random, &alphabet);
    let queries = (0..8).map(|_| valid_query(random, &alphabet, &draft)).collect();
    let basics = alphabet.three_basics(random);
    OldCase { draft, queries, basics }
}

/// An old image, damaged in one of three cases, and a buffer: the new image fits into it exactly, or it is short or
/// long,
/// by as much as twins take or by more.
pub fn convert_case(seed: u64) -> (Vec<u8>, Vec<u8>) {
    let random = &mut Random::new(seed);
    let alphabet = Alphabet::new(random);
    let draft = old_policy(random, &alphabet);
    let mut image = draft.image();
    let (old, new) = (image.len(), length_without_twins(&draft));
    let length = match random.of(0..=9) {
        0 => random.of(0..=9),
        1 => new - 1,
        2 | 3 => new,
        4 => random.of(new..=old),
        5 => old.saturating_sub(1),
        6 => old,
        7 => random.of(0..=new),
        _ => old + random.of(0..=100),
    };
    if random.percent(33) {
        damage_image(random, &mut image);
    }
    (image, random.bytes(length))
}

/// The length of the image in which of equal groups one is left.
pub fn length_without_twins(draft: &Draft) -> usize {
    let twins = (0..draft.groups.len()).filter(|&n| draft.groups[..n].contains(&draft.groups[n]));
    draft.image().len() - twins.map(|n| draft.groups[n].len()).sum::<usize>()
}

/// A policy of few different groups, most of which there are several times. What named a group names any of its twins.
fn old_policy(random: &mut Random, alphabet: &Alphabet) -> Draft {
    let mut draft = policy(random, alphabet);
    if random.percent(12) {
        return draft;
    }
    if draft.groups.is_empty() {
        draft.groups.push(alphabet.group(random));
    }
    let before = draft.groups.clone();
    let more = match random.of(0..=99) {
        0 => 256,
        1..=4 => random.of(10..=40),
        _ => random.of(1..=6),
    };
    while draft.groups.len() < 256.min(before.len() + more) {
        let twin = draft.groups[random.of(0..=draft.groups.len() - 1)].clone();
        let at = if random.percent(25) { draft.groups.len() } else { random.of(0..=draft.groups.len()) };
        draft.groups.insert(at, twin);
    }
    if random.percent(1) {
        full_groups(random, &mut draft.groups);
    }
    for record in draft.rules.iter_mut().chain(&mut draft.constraints) {
        rename(random, record, &before, &draft.groups);
    }
    let groups = draft.groups.len();
    if draft.rules.len() < 1000 && draft.constraints.len() < 240 {
        for _ in 0..random.of(0..=4) {
            draft.rules.insert(random.of(0..=draft.rules.len()), alphabet.rule(random, groups));
            draft.constraints.push(alphabet.constraint(random, groups));
        }
    }
    draft
}

/// Has each reference to a group name one of the groups that now have its members.
fn rename(random: &mut Random, record: &mut [u8], before: &[Vec<u8>], groups: &[Vec<u8>]) {
    let first = if record[1] == 4 { [6, 8] } else { [2, 4] };
    let listed = if record[1] == 4 { 11..record.len() } else { 0..0 };
    for at in first.into_iter().chain(listed.step_by(2)) {
        let field = u16::from_be_bytes([record[at], record[at + 1]]);
        if field >= mungaite::group(0) {
            let named = &before[usize::from(field - mungaite::group(0))];
            let twins: Vec<usize> = (0..groups.len()).filter(|&n| groups[n] == *named).collect();
            let twin = mungaite::group(random.pick(&twins) as u16);
            record[at..at + 2].copy_from_slice(&twin.to_be_bytes());
        }
    }
}
