//! Groups with the members of others: a table of hashes, and one pass.

use crate::format::{count, GROUPS, HEADER};

/// Slots for the most groups that a policy has, with as many to spare.
pub const MOST_SLOTS: usize = 512;

/// The place of the first group that has the members of an earlier one. A small policy has a small table to clear.
#[inline]
pub fn first_twin(image: &[u8]) -> Option<usize> {
    match count(image, GROUPS) {
        0 | 1 => None,
        2..=16 => first_in::<32>(image),
        17..=64 => first_in::<128>(image),
        _ => first_in::<MOST_SLOTS>(image),
    }
}

#[inline(never)]
fn first_in<const SLOTS: usize>(image: &[u8]) -> Option<usize> {
    let mut met = Met::<SLOTS>::NONE;
    let mut at = HEADER;
    for _ in 0..count(image, GROUPS) {
        let group = &image[at..at + usize::from(image[at])];
        if met.meet(group, at as u16, |earlier| image[usize::from(earlier)..].starts_with(group)).is_some() {
            return Some(at);
        }
        at += group.len();
    }
    None
}

/// The groups that were met: in the slot that a group's hash names, or the next that was free, 16 more bits of the hash
/// and a name for the group, which is not 0.
pub struct Met<const SLOTS: usize>([u32; SLOTS]);

impl<const SLOTS: usize> Met<SLOTS> {
    pub const NONE: Met<SLOTS> = Met([0; SLOTS]);

    /// The name of the group that a record repeats. Where there is none, the record is met by a name of its own.
    #[inline]
    pub fn meet(&mut self, group: &[u8], name: u16, repeats: impl Fn(u16) -> bool) -> Option<u16> {
        let hash = hash(&group[2..]);
        let entry = (hash >> 16) as u32 & 0xFFFF_0000 | u32::from(name);
        let mut slot = (hash >> 48) as usize % SLOTS;
        while self.0[slot] != 0 {
            let there = self.0[slot];
            if (there ^ entry) >> 16 == 0 && repeats(there as u16) {
                return Some(there as u16);
            }
            slot = (slot + 1) % SLOTS;
        }
        self.0[slot] = entry;
        None
    }
}

/// The halves of each word, with a key, times each other: no product waits for another. The last word may overlap the
/// one before.
#[inline]
fn hash(members: &[u8]) -> u64 {
    let last = match members.last_chunk() {
        Some(last) => u64::from_le_bytes(*last),
        None => members.iter().fold(0, |word, byte| word << 8 | u64::from(*byte)),
    };
    let product = |word: u64| (word & 0xFFFF_FFFF) * (word >> 32);
    let words = members.as_chunks().0.iter().zip(&KEYS);
    let sum = words.fold(last, |sum: u64, (word, key)| sum.wrapping_add(product(u64::from_le_bytes(*word) ^ key)));
    (sum ^ sum >> 32).wrapping_mul(LAST_KEY)
}

const LAST_KEY: u64 = 0x9E37_79B9_7F4A_7C15;
const KEYS: [u64; 16] = keys();

/// Odd numbers with no pattern (splitmix64).
const fn keys() -> [u64; 16] {
    let mut keys = [0; 16];
    let mut state = LAST_KEY;
    let mut key = 0;
    while key < keys.len() {
        state = state.wrapping_add(LAST_KEY);
        let mixed = (state ^ (state >> 30)).wrapping_mul(0xBF58_476D_1CE4_E5B9);
        let mixed = (mixed ^ (mixed >> 27)).wrapping_mul(0x94D0_49BB_1331_11EB);
        keys[key] = mixed ^ (mixed >> 31) | 1;
        key += 1;
    }
    keys
}
