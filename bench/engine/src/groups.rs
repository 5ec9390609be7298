//! The groups of a checked image, found by one pass and read from its bytes.

use crate::format::{count, GROUPS, HEADER, LIMITS};
use crate::set::Set;
use crate::sets::Sets;

pub struct Groups<'a> {
    image: &'a [u8],
    places: [u16; LIMITS[GROUPS] as usize],
    pub count: u16,
    /// The place of the first rule.
    pub end: usize,
}

impl<'a> Groups<'a> {
    pub fn find(image: &'a [u8]) -> Groups<'a> {
        let count = count(image, GROUPS);
        let mut places = [0; LIMITS[GROUPS] as usize];
        let mut at = HEADER;
        for place in &mut places[..usize::from(count)] {
            *place = at as u16;
            at += usize::from(image[at]);
        }
        Groups { image, places, count, end: at }
    }

    /// The members of a group, two bytes each.
    #[inline]
    pub fn members(&self, group: usize) -> &'a [[u8; 2]] {
        let at = usize::from(self.places[group]);
        pairs(&self.image[at + 2..at + usize::from(self.image[at])])
    }

    pub fn set_of(&self, group: usize) -> Set {
        let mut set = Set::EMPTY;
        self.mark_group(group, &mut set);
        set
    }

    /// How many of a group's members are in a set.
    #[inline]
    pub fn count_in(&self, group: usize, set: &Set) -> usize {
        self.basic_types(group).filter(|&basic| set.has(basic)).count()
    }

    #[inline]
    fn basic_types(&self, group: usize) -> impl Iterator<Item = u16> + 'a {
        numbers(self.members(group))
    }
}

impl Sets for Groups<'_> {
    #[inline]
    fn mark_group(&self, group: usize, set: &mut Set) {
        set.insert_rising(self.basic_types(group));
    }

    #[inline]
    fn group_within(&self, group: usize, set: &Set) -> bool {
        self.basic_types(group).all(|basic| set.has(basic))
    }

    #[inline]
    fn group_touches(&self, group: usize, set: &Set) -> bool {
        self.basic_types(group).any(|basic| set.has(basic))
    }
}

/// Groups as sets, each kept from the first time that it is asked for.
pub struct Kept(Vec<Option<Set>>);

impl Kept {
    pub const NEW: Kept = Kept(Vec::new());

    /// Puts a group's members into a set.
    #[inline]
    pub fn include(&mut self, groups: &Groups<'_>, group: usize, set: &mut Set) {
        if self.0.is_empty() {
            self.0.resize(usize::from(groups.count), None);
        }
        set.include(self.0[group].get_or_insert_with(|| groups.set_of(group)));
    }
}

/// Fields of two bytes, side by side.
#[inline]
pub fn pairs(fields: &[u8]) -> &[[u8; 2]] {
    fields.as_chunks().0
}

#[inline]
pub fn numbers(fields: &[[u8; 2]]) -> impl Iterator<Item = u16> + '_ {
    fields.iter().map(|&field| u16::from_be_bytes(field))
}
