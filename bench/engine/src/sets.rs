//! The sets that types stand for, however a policy holds its groups.

use crate::format::group_of;
use crate::set::Set;

pub trait Sets {
    /// Puts a group's members into a set.
    fn mark_group(&self, group: usize, set: &mut Set);
    fn group_within(&self, group: usize, set: &Set) -> bool;
    fn group_touches(&self, group: usize, set: &Set) -> bool;

    fn mark(&self, field: u16, set: &mut Set) {
        match group_of(field) {
            None => set.insert(field),
            Some(group) => self.mark_group(group, set),
        }
    }
}

/// A set that many types are tested against, one way only: each group is looked at once and its answer kept.
pub struct Against<'a, S> {
    sets: &'a S,
    set: Set,
    memo: Memo,
}

impl<'a, S: Sets> Against<'a, S> {
    /// Against the union of some types.
    pub fn new(sets: &'a S, fields: impl IntoIterator<Item = u16>) -> Against<'a, S> {
        let mut set = Set::EMPTY;
        for field in fields {
            sets.mark(field, &mut set);
        }
        Against { sets, set, memo: Memo::NEW }
    }

    #[inline]
    pub fn touched_by(&mut self, field: u16) -> bool {
        self.ask(field, S::group_touches)
    }

    #[inline]
    pub fn holds(&mut self, field: u16) -> bool {
        self.ask(field, S::group_within)
    }

    #[inline]
    fn ask(&mut self, field: u16, of_group: impl Fn(&S, usize, &Set) -> bool) -> bool {
        let Against { sets, set, memo } = self;
        match group_of(field) {
            None => set.has(field),
            Some(group) => memo.ask(group, || of_group(sets, group, set)),
        }
    }
}

/// Answers that were found before, each for a number below 256.
pub struct Memo {
    known: [u64; 4],
    yes: [u64; 4],
}

impl Memo {
    pub const NEW: Memo = Memo { known: [0; 4], yes: [0; 4] };

    /// Whether nothing was found before.
    pub fn is_empty(&self) -> bool {
        self.known == [0; 4]
    }

    /// Whether a no was found before.
    #[inline]
    pub fn says_no(&self, number: usize) -> bool {
        let word = (number / 64) & 3;
        let bit = 1 << (number % 64);
        self.known[word] & !self.yes[word] & bit != 0
    }

    #[inline]
    pub fn ask(&mut self, number: usize, find: impl FnOnce() -> bool) -> bool {
        let word = (number / 64) & 3;
        let bit = 1 << (number % 64);
        if self.known[word] & bit == 0 {
            self.known[word] |= bit;
            if find() {
                self.yes[word] |= bit;
            }
        }
        self.yes[word] & bit != 0
    }
}
