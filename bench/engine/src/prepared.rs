//! A checked image unpacked once, for many decisions: groups as sets, rules and constraints decoded. It needs a heap.

use crate::constraints::{Constraint, Constraints};
use crate::decide::covered;
use crate::format::{check_query, group_of};
use crate::groups::Groups;
use crate::nearest::{nearest, Inside};
use crate::predicate::{holds, Pair};
use crate::rules::{live, Asked, Rule, Rules};
use crate::run::{answer_rows, check_counts};
use crate::set::Set;
use crate::sets::Sets;
use crate::switches::{On, Verdicts};
use mungaite::{Decision, Query, Refusal, Run};

pub struct Prepared<'a> {
    groups: Expanded,
    rules: Vec<Rule>,
    live: Live,
    constraints: Vec<Constraint<'a>>,
}

impl<'a> Prepared<'a> {
    /// Unpacks an image that `check` accepted before.
    pub fn new(image: &'a [u8]) -> Prepared<'a> {
        let groups = Groups::find(image);
        let rules = Rules::of(image, &groups);
        let constraints = Constraints { rest: rules.clone().skip() };
        Prepared {
            groups: Expanded::new(&groups),
            live: Live::of(rules.clone()),
            rules: rules.collect(),
            constraints: constraints.collect(),
        }
    }

    pub fn decide(&self, query: Query) -> Result<Decision, Refusal> {
        self.decide_by(query, |_, constraint, on| self.holds(constraint, on))
    }

    /// As `run` of an image, without the check. What a predicate says of the same live rules is found once.
    pub fn run(&self, queries: &[Query], answers: &mut [Result<Decision, Refusal>]) -> Result<Run, Refusal> {
        check_counts(queries.len(), answers.len())?;
        let mut verdicts = Verdicts::NEW;
        Ok(answer_rows(queries, answers, |query| {
            self.decide_by(query, |number, constraint, on| {
                let held = verdicts.under(on, || self.rules.iter().copied());
                held.ask(number, || self.holds(constraint, on))
            })
        }))
    }

    /// Decides, given what tells whether a constraint's predicate holds.
    #[inline]
    fn decide_by(
        &self,
        query: Query,
        mut holds: impl FnMut(usize, &Constraint<'_>, On) -> bool,
    ) -> Result<Decision, Refusal> {
        check_query(query, self.groups.0.len() as u16)?;
        let asked = Asked::by(query);
        let types = (query.source, query.destination);
        let covers = |rule: &Rule| rule.may_cover(asked) && self.within(types, rule.types());
        let Some(rule) = self.rules.iter().position(covers) else {
            let (mut source, mut destination) = (self.groups.inner(types.0), self.groups.inner(types.1));
            let nearest = nearest(self.rules.iter().copied(), asked, &mut source, &mut destination);
            return Ok(Decision::NotPermitted { nearest });
        };
        let broken = self.constraints.iter().enumerate().find(|&(number, constraint)| {
            constraint.key == asked.key
                && self.within(types, (constraint.first, constraint.second))
                && !holds(number, constraint, asked.on)
        });
        Ok(covered(rule, broken.map(|(number, _)| number)))
    }

    #[inline]
    fn holds(&self, constraint: &Constraint<'_>, on: On) -> bool {
        let include = |group, set: &mut Set| self.groups.mark_group(group, set);
        match &self.live {
            Live::Always(pairs) => holds(constraint, &self.groups, pairs.iter().copied(), include),
            Live::Waiting(rules) => {
                let live = rules.iter().filter(|(condition, _)| on.has(*condition)).map(|(_, pair)| *pair);
                holds(constraint, &self.groups, live, include)
            }
        }
    }

    fn within(&self, inner: Pair, outer: Pair) -> bool {
        self.groups.within(inner.0, outer.0) && self.groups.within(inner.1, outer.1)
    }
}

/// The live rules: the same under every word, or by their conditions.
enum Live {
    Always(Vec<Pair>),
    Waiting(Vec<(u8, Pair)>),
}

impl Live {
    fn of(rules: Rules<'_>) -> Live {
        if !On::named(rules.clone()).has_switch() {
            return Live::Always(live(rules, On::by(0)).collect());
        }
        let waiting = rules.filter_map(|rule| match rule {
            Rule::Allow { source, destination, condition: condition @ 1.., .. } => {
                Some((condition, (source, destination)))
            }
            _ => None,
        });
        Live::Waiting(waiting.collect())
    }
}

/// Groups as sets.
struct Expanded(Vec<Set>);

impl Expanded {
    fn new(groups: &Groups<'_>) -> Expanded {
        Expanded((0..usize::from(groups.count)).map(|group| groups.set_of(group)).collect())
    }

    fn inner(&self, field: u16) -> Inner<'_> {
        Inner { groups: self, field }
    }

    fn within(&self, inner: u16, outer: u16) -> bool {
        inner == outer
            || match (group_of(inner), group_of(outer)) {
                (None, None) => false,
                (Some(inner), None) => self.0[inner].is(outer),
                (None, Some(outer)) => self.0[outer].has(inner),
                (Some(inner), Some(outer)) => self.0[inner].within(&self.0[outer]),
            }
    }
}

/// A type of the query. A test of two sets is so short that none is kept.
struct Inner<'a> {
    groups: &'a Expanded,
    field: u16,
}

impl Inside for Inner<'_> {
    fn within(&mut self, outer: u16) -> bool {
        self.groups.within(self.field, outer)
    }

    fn known_outside(&self, _: u16) -> bool {
        false
    }
}

impl Sets for Expanded {
    fn mark_group(&self, group: usize, set: &mut Set) {
        set.include(&self.0[group]);
    }

    fn group_within(&self, group: usize, set: &Set) -> bool {
        self.0[group].within(set)
    }

    fn group_touches(&self, group: usize, set: &Set) -> bool {
        self.0[group].touches(set)
    }
}
