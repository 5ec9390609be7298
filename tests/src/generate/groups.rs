//! Random groups beside others: one that is no twin of theirs, or one that is.

use super::alphabet::Alphabet;
use crate::draft::{group, Draft};
use crate::random::Random;

/// How often a group is drawn for one that there is not yet. There may be no more of a small alphabet.
const DRAWS: usize = 12;

/// A group whose members no other group has.
pub fn fresh_group(random: &mut Random, alphabet: &Alphabet, groups: &[Vec<u8>]) -> Option<Vec<u8>> {
    (0..DRAWS).map(|_| alphabet.group(random)).find(|drawn| !groups.contains(drawn))
}

/// Fills the section up to its limit, without twins.
pub fn full_groups(random: &mut Random, groups: &mut Vec<Vec<u8>>) {
    while groups.len() < 256 {
        let lowest = random.of(0..=1000) as u16;
        let any = group(&[lowest, random.of(1001..=1023) as u16]);
        if !groups.contains(&any) {
            groups.insert(random.of(0..=groups.len()), any);
        }
    }
}

/// The type field of the group with these members, which is added where there is none.
pub fn named_group(draft: &mut Draft, members: [u16; 2]) -> u16 {
    let record = group(&members);
    match draft.groups.iter().position(|there| *there == record) {
        Some(n) => mungaite::group(n as u16),
        None => draft.add_group(members),
    }
}

/// Puts copies of groups among the groups, in one of three cases behind all others, in one of three two of one group.
/// What named a group names that number still. There must be a group.
pub fn add_twins(random: &mut Random, groups: &mut Vec<Vec<u8>>) {
    let twin = groups[random.of(0..=groups.len() - 1)].clone();
    for _ in 0..1 + usize::from(random.percent(33)) {
        let at = if random.percent(33) { groups.len() } else { random.of(0..=groups.len()) };
        groups.insert(at, twin.clone());
    }
    groups.truncate(256);
}
