//! A type of the query, tested for being within others.

use crate::format::group_of;
use crate::groups::Groups;
use crate::nearest::Inside;
use crate::set::Set;
use crate::sets::{Memo, Sets};

pub struct Inner<'a> {
    marked: Marked<'a>,
    memo: Memo,
}

impl<'a> Inner<'a> {
    pub fn new(groups: &'a Groups<'a>, field: u16) -> Inner<'a> {
        Inner { marked: Marked::new(groups, field), memo: Memo::NEW }
    }
}

impl Inside for Inner<'_> {
    #[inline]
    fn within(&mut self, outer: u16) -> bool {
        match group_of(outer) {
            None => self.marked.is(outer),
            Some(group) => self.memo.ask(group, || self.marked.within_group(group)),
        }
    }

    #[inline]
    fn known_outside(&self, outer: u16) -> bool {
        match group_of(outer) {
            None => !self.marked.is(outer),
            Some(group) => self.memo.says_no(group),
        }
    }
}

/// A type's set, its size and its ends.
struct Marked<'a> {
    groups: &'a Groups<'a>,
    set: Set,
    size: usize,
    least: [u8; 2],
    most: [u8; 2],
}

impl<'a> Marked<'a> {
    fn new(groups: &'a Groups<'a>, field: u16) -> Marked<'a> {
        let mut set = Set::EMPTY;
        groups.mark(field, &mut set);
        let basic = [field.to_be_bytes()];
        let members = group_of(field).map_or(&basic[..], |group| groups.members(group));
        Marked { groups, set, size: members.len(), least: members[0], most: members[members.len() - 1] }
    }

    #[inline]
    fn is(&self, basic: u16) -> bool {
        self.size == 1 && self.least == basic.to_be_bytes()
    }

    /// Size and ends first; then a search for the one basic type, or a count of the members that are in the set.
    fn within_group(&self, group: usize) -> bool {
        let members = self.groups.members(group);
        if self.size > members.len() || self.least < members[0] || self.most > members[members.len() - 1] {
            return false;
        }
        match self.size {
            1 => members.binary_search(&self.least).is_ok(),
            size => self.groups.count_in(group, &self.set) == size,
        }
    }
}
