//! A checked image with what its decisions share: the places of its groups and rules and, once one is asked for, the
//! groups as sets and what each constraint's predicate says of the live rules.

use crate::constraints::Constraints;
use crate::decide::covered;
use crate::format::check_query;
use crate::groups::{Groups, Kept};
use crate::inner::Inner;
use crate::nearest::{nearest, Inside};
use crate::predicate::{holds, Pair};
use crate::rules::{live, Asked, Rules};
use crate::set::Set;
use crate::switches::Verdicts;
use mungaite::{Decision, Query, Refusal};

pub struct Opened<'a> {
    groups: &'a Groups<'a>,
    rules: Rules<'a>,
    verdicts: Verdicts,
    kept: Kept,
}

impl<'a> Opened<'a> {
    /// Opens an image that `check` accepted before.
    #[inline]
    pub fn new(image: &'a [u8], groups: &'a Groups<'a>) -> Opened<'a> {
        Opened { groups, rules: Rules::of(image, groups), verdicts: Verdicts::NEW, kept: Kept::NEW }
    }

    #[inline]
    pub fn decide(&mut self, query: Query) -> Result<Decision, Refusal> {
        let Opened { groups, rules, verdicts, kept } = self;
        let groups = *groups;
        check_query(query, groups.count)?;
        let asked = Asked::by(query);
        let mut source = Inner::new(groups, query.source);
        let mut destination = Inner::new(groups, query.destination);
        let mut within = |outer: Pair| source.within(outer.0) && destination.within(outer.1);
        let mut after = rules.clone();
        let covering = after.position(|rule| rule.may_cover(asked) && within(rule.types()));
        let Some(rule) = covering else {
            let nearest = nearest(rules.clone(), asked, &mut source, &mut destination);
            return Ok(Decision::NotPermitted { nearest });
        };
        let held = verdicts.under(asked.on, || rules.clone());
        let mut constraints = Constraints { rest: after.skip() }.enumerate();
        let broken = constraints.find(|(number, constraint)| {
            constraint.key == asked.key
                && within((constraint.first, constraint.second))
                && !held.ask(*number, || {
                    let include = |group, set: &mut Set| kept.include(groups, group, set);
                    holds(constraint, groups, live(rules.clone(), asked.on), include)
                })
        });
        Ok(covered(rule, broken.map(|(number, _)| number)))
    }
}
