//! Which conditions are on.

use crate::rules::Rule;
use crate::sets::Memo;
use std::mem::replace;

/// A set of conditions, one bit each: the condition byte is its number.
#[derive(Clone, Copy, PartialEq, Eq)]
pub struct On(u64);

/// The condition of switch 0.
pub const FIRST_SWITCH: u8 = 2;

impl On {
    const NONE: On = On(0);

    /// Condition 1, and those of the switches that are on in a word.
    #[inline]
    pub fn by(switches: u32) -> On {
        On(u64::from(switches) << FIRST_SWITCH | 1 << 1)
    }

    #[inline]
    pub fn has(self, condition: u8) -> bool {
        self.0 >> (condition % 64) & 1 != 0
    }

    pub fn has_switch(self) -> bool {
        self.0 >> FIRST_SWITCH != 0
    }

    /// The conditions that some rule has.
    pub fn named(rules: impl Iterator<Item = Rule>) -> On {
        let conditions = rules.map(|rule| match rule {
            Rule::Allow { condition, .. } => 1 << (condition % 64),
            Rule::Transition { .. } => 0,
        });
        On(conditions.fold(0, |all, condition| all | condition))
    }
}

/// What each constraint's predicate says of the live rules, found once for each set of them.
pub struct Verdicts {
    held: Memo,
    on: On,
    /// The conditions that a rule has, once they are asked for; and what was found before under others of them.
    named: Option<On>,
    earlier: Vec<(On, Memo)>,
}

impl Verdicts {
    pub const NEW: Verdicts = Verdicts { held: Memo::NEW, on: On::NONE, named: None, earlier: Vec::new() };

    /// The verdicts while these conditions are on. Only where they change after one was found are the rules looked at
    /// for theirs.
    #[inline]
    pub fn under<R: Iterator<Item = Rule>>(&mut self, on: On, rules: impl FnOnce() -> R) -> &mut Memo {
        if self.on != on {
            if !self.held.is_empty() || !self.earlier.is_empty() {
                let named = self.named.get_or_insert_with(|| On::named(rules())).0;
                self.turn_to(On(self.on.0 & named), On(on.0 & named));
            }
            self.on = on;
        }
        &mut self.held
    }

    /// Puts what was found under some conditions away, and takes out what was found under others before.
    fn turn_to(&mut self, before: On, now: On) {
        if before == now {
            return;
        }
        let held = replace(&mut self.held, Memo::NEW);
        match self.earlier.iter_mut().find(|(on, _)| *on == now) {
            Some(place) => self.held = replace(place, (before, held)).1,
            None => self.earlier.push((before, held)),
        }
    }
}
