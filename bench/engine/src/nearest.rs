//! The rule that came nearest to covering a query that none covers.

use crate::predicate::Pair;
use crate::rules::{Asked, Rule};
use mungaite::Nearest;

/// A type of the query, which other types may hold.
pub trait Inside {
    fn within(&mut self, outer: u16) -> bool;

    /// Whether no search is needed to tell that the other does not hold it.
    fn known_outside(&self, outer: u16) -> bool;
}

/// The rule of the most steps, the lowest of those. After a rule only one that passes more matters; what can be told
/// without sets is tested first. It stands apart, so that the first walk is compiled as if there were no second.
#[inline(never)]
pub fn nearest(
    rules: impl Iterator<Item = Rule>,
    asked: Asked,
    source: &mut impl Inside,
    destination: &mut impl Inside,
) -> Option<Nearest> {
    let mut rules = rules.enumerate();
    let mut next = rules.next();
    let mut best = None;
    while let Some((number, rule)) = next {
        let steps = steps(&rule, asked, source, destination);
        best = Some(Nearest { steps, rule: number as u16 });
        let mut within = |(from, to): Pair| {
            let known = source.known_outside(from) || destination.known_outside(to);
            !known && source.within(from) && destination.within(to)
        };
        next = match steps {
            0 => rules.find(|(_, rule)| rule.most_steps(asked) > 0),
            1 => rules.find(|(_, rule)| rule.most_steps(asked) > 1 && source.within(rule.types().0)),
            2 => rules.find(|(_, rule)| rule.most_steps(asked) > 2 && within(rule.types())),
            3 => rules.find(|(_, rule)| rule.most_steps(asked) > 3 && within(rule.types())),
            _ => None,
        };
    }
    best
}

/// How many steps a rule passes that does not cover the query.
fn steps(rule: &Rule, asked: Asked, source: &mut impl Inside, destination: &mut impl Inside) -> u8 {
    let (from, to) = rule.types();
    match rule.most_steps(asked) {
        0 => 0,
        _ if !source.within(from) => 1,
        _ if !destination.within(to) => 2,
        most => most,
    }
}
