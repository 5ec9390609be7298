//! A set of types: basic types, and groups by their numbers.

use crate::format::group_of;
use crate::set::Set;

pub struct Types {
    basic: Set,
    groups: [u64; 4],
}

impl Types {
    pub const NONE: Types = Types { basic: Set::EMPTY, groups: [0; 4] };

    #[inline]
    pub fn insert(&mut self, field: u16) {
        match group_of(field) {
            None => self.basic.insert(field),
            Some(group) => self.groups[(group / 64) & 3] |= 1 << (group % 64),
        }
    }

    pub fn is_empty(&self) -> bool {
        self.groups == [0; 4] && self.basic == Set::EMPTY
    }

    /// The basic types that they stand for; `include` puts a group's members into a set.
    #[inline]
    pub fn union(&self, mut include: impl FnMut(usize, &mut Set)) -> Set {
        let mut union = self.basic;
        for (word, &bits) in self.groups.iter().enumerate() {
            let mut left = bits;
            while left != 0 {
                include(64 * word + left.trailing_zeros() as usize, &mut union);
                left &= left - 1;
            }
        }
        union
    }
}
