//! The rules of a checked image, read one after the other.

use crate::format::{count, RULES};
use crate::groups::Groups;
use crate::record::{ALLOW, TRANSITION};
use crate::switches::On;
use mungaite::Query;

#[derive(Clone, Copy)]
pub enum Rule {
    Allow { source: u16, destination: u16, key: u32, condition: u8 },
    Transition { source: u16, destination: u16 },
}

/// What a query asks of a rule, but for its types.
#[derive(Clone, Copy)]
pub struct Asked {
    pub key: u32,
    pub on: On,
}

impl Asked {
    #[inline]
    pub fn by(query: Query) -> Asked {
        Asked { key: key(query.class, query.action), on: On::by(query.switches) }
    }
}

impl Rule {
    /// What can be told without sets: an allow rule is on and of the query's class and action.
    #[inline]
    pub fn may_cover(&self, asked: Asked) -> bool {
        match *self {
            Rule::Allow { key, condition, .. } => key == asked.key && asked.on.has(condition),
            Rule::Transition { .. } => true,
        }
    }

    /// The most steps that it may pass if it does not cover the query, as far as can be told without sets.
    #[inline]
    pub fn most_steps(&self, asked: Asked) -> u8 {
        match *self {
            Rule::Allow { condition, .. } if !asked.on.has(condition) => 0,
            Rule::Allow { key, .. } if class(key) != class(asked.key) => 3,
            Rule::Allow { key, .. } if key != asked.key => 4,
            Rule::Allow { .. } | Rule::Transition { .. } => 2,
        }
    }

    #[inline]
    pub fn types(&self) -> (u16, u16) {
        match *self {
            Rule::Allow { source, destination, .. } | Rule::Transition { source, destination } => (source, destination),
        }
    }
}

/// Class and action as one number.
#[inline]
pub fn key(class: u16, action: u16) -> u32 {
    u32::from(class) << 16 | u32::from(action)
}

#[inline]
fn class(key: u32) -> u32 {
    key >> 16
}

/// The rules from a place on; when they end, `rest` starts with the constraints.
#[derive(Clone)]
pub struct Rules<'a> {
    rest: &'a [u8],
    left: u16,
}

impl Iterator for Rules<'_> {
    type Item = Rule;

    /// The kind tells the length, so the next rule's place need not wait for the length byte.
    #[inline]
    fn next(&mut self) -> Option<Rule> {
        self.left = self.left.checked_sub(1)?;
        match *self.rest {
            [_, ALLOW, s1, s0, d1, d0, c1, c0, a1, a0, condition, ref rest @ ..] => {
                self.rest = rest;
                Some(Rule::Allow {
                    source: u16::from_be_bytes([s1, s0]),
                    destination: u16::from_be_bytes([d1, d0]),
                    key: u32::from_be_bytes([c1, c0, a1, a0]),
                    condition,
                })
            }
            [_, TRANSITION, s1, s0, d1, d0, _, _, ref rest @ ..] => {
                self.rest = rest;
                Some(Rule::Transition {
                    source: u16::from_be_bytes([s1, s0]),
                    destination: u16::from_be_bytes([d1, d0]),
                })
            }
            _ => None,
        }
    }
}

impl<'a> Rules<'a> {
    pub fn of(image: &'a [u8], groups: &Groups<'_>) -> Rules<'a> {
        Rules { rest: &image[groups.end..], left: count(image, RULES) }
    }

    /// What stands after the rules.
    pub fn skip(mut self) -> &'a [u8] {
        while self.next().is_some() {}
        self.rest
    }
}

/// Source and destination of the live rules: allow rules that are on.
#[inline]
pub fn live(rules: Rules<'_>, on: On) -> impl Iterator<Item = (u16, u16)> + '_ {
    rules.filter_map(move |rule| match rule {
        Rule::Allow { source, destination, condition, .. } if on.has(condition) => Some((source, destination)),
        _ => None,
    })
}
