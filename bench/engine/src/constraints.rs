//! The constraints of a checked image, read one after the other.

use crate::format::number;
use crate::groups::{numbers, pairs};
use crate::rules::key;

pub struct Constraint<'a> {
    pub key: u32,
    pub first: u16,
    pub second: u16,
    pub predicate: u8,
    list: &'a [[u8; 2]],
}

impl Constraint<'_> {
    pub fn list(&self) -> impl Iterator<Item = u16> + '_ {
        numbers(self.list)
    }
}

pub struct Constraints<'a> {
    pub rest: &'a [u8],
}

impl<'a> Iterator for Constraints<'a> {
    type Item = Constraint<'a>;

    #[inline]
    fn next(&mut self) -> Option<Constraint<'a>> {
        let length = usize::from(*self.rest.first()?);
        let (record, rest) = self.rest.split_at(length);
        self.rest = rest;
        Some(Constraint {
            key: key(number(record, 2), number(record, 4)),
            first: number(record, 6),
            second: number(record, 8),
            predicate: record[10],
            list: pairs(&record[11..]),
        })
    }
}
