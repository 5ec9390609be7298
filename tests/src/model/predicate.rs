//! The four predicates.

use super::policy::{touches, within, Constraint, Policy, Request, Rule, Set};
use super::slip::{Predicate, Reader};
use super::{Model, Slip};
use std::ptr;

/// A predicate that looks at the rules: what it was asked, and the live rules.
struct Asked<'a> {
    predicate: Predicate,
    first: &'a Set,
    second: &'a Set,
    live: Vec<&'a Rule>,
}

impl Asked<'_> {
    /// Whether a rule's source is a group that is a destination too. Only a mistaken model asks.
    fn judged(&self, rule: &Rule) -> bool {
        let source = rule.source_field;
        source >= 32768 && self.live.iter().any(|other| other.destination_field == source)
    }
}

impl Model {
    /// Whether a constraint's predicate is true.
    pub fn holds(self, constraint: &Constraint, policy: &Policy, query: &Request) -> bool {
        let Some(predicate) = Predicate::of(constraint.predicate) else {
            let concerns = self.concerns(constraint, query) || self.slips(Slip::BanWithoutGate);
            return !concerns || self.slips(Slip::BanHolds);
        };
        if !self.concerns(constraint, query) && !self.slips(Slip::NoGate(predicate)) {
            return true;
        }
        let (first, second) = if self.slips(Slip::PredicateOfQuery(predicate)) {
            (&query.source, &query.destination)
        } else {
            (&constraint.first, &constraint.second)
        };
        let last = policy.rules.len().saturating_sub(1);
        let rules = if self.slips(Slip::LastRuleNotLive(predicate)) { &policy.rules[..last] } else { &policy.rules };
        let live = rules.iter().filter(|rule| self.live(predicate, rule, query)).collect();
        let asked = Asked { predicate, first, second, live };
        match predicate {
            Predicate::Separation => !self.shares_source(&asked),
            Predicate::Roster => self.all_listed(&asked, &constraint.list),
            Predicate::Companion => self.has_companion(&asked),
        }
    }

    /// The query's source is within the first argument and its destination within the second.
    pub fn concerns(self, constraint: &Constraint, query: &Request) -> bool {
        let inside: fn(&Set, &Set) -> bool = match self.slip {
            Some(Slip::GateByTouch) => touches,
            Some(Slip::GateOutward) => |asked, argument| within(argument, asked),
            _ => within,
        };
        let (first, second) = (&constraint.first, &constraint.second);
        match self.slip {
            Some(Slip::GateSwapped) => inside(&query.source, second) && inside(&query.destination, first),
            Some(Slip::GateBySourceOnly) => inside(&query.source, first),
            Some(Slip::ArgumentJudgedOnce) if constraint.one_argument => inside(&query.source, first),
            Some(Slip::GateByDestinationOnly) => inside(&query.destination, second),
            _ => inside(&query.source, first) && inside(&query.destination, second),
        }
    }

    /// A rule's type meets an argument.
    fn meets(self, asked: &Asked, set: &Set, argument: &Set) -> bool {
        if self.slips(Slip::PredicateByWithin(asked.predicate)) {
            within(set, argument)
        } else if self.slips(Slip::PredicateOutward(asked.predicate)) {
            within(argument, set)
        } else {
            touches(set, argument)
        }
    }

    /// An allow rule that is on, of any class and action.
    fn live(self, predicate: Predicate, rule: &Rule, query: &Request) -> bool {
        let Some(allow) = &rule.allow else {
            return self.slips(Slip::TransitionLive(predicate));
        };
        (self.is_on(Reader::of(predicate), allow, query) || self.slips(Slip::OffRuleLive(predicate)))
            && (rule.class == query.class || !self.slips(Slip::PredicateOfOneClass(predicate)))
            && (allow.action == query.action || !self.slips(Slip::PredicateOfOneAction(predicate)))
    }

    /// Some basic type lies in the source of a rule to the first argument and in that of a rule to the second.
    fn shares_source(self, asked: &Asked) -> bool {
        let to = |argument: &Set| -> Vec<&Rule> {
            asked.live.iter().copied().filter(|rule| self.meets(asked, &rule.destination, argument)).collect()
        };
        let mut to_first = to(if self.slips(Slip::SeparationOfSecond) { asked.second } else { asked.first });
        let to_second = to(if self.slips(Slip::SeparationOfFirst) { asked.first } else { asked.second });
        if self.slips(Slip::JudgedOnce(Predicate::Separation)) {
            let is_group = |rule: &&Rule| rule.destination_field >= 32768;
            to_first.retain(|rule| !is_group(rule));
            to_first.extend(to_second.iter().filter(|rule| is_group(rule)));
        }
        to_first.iter().any(|one| to_second.iter().any(|other| self.share(asked, one, other)))
    }

    /// Some basic type lies in both rules' sources.
    fn share(self, asked: &Asked, one: &Rule, other: &Rule) -> bool {
        let shared = touches(&one.source, &other.source);
        match self.slip {
            Some(Slip::SeparationBySameSet) => one.source == other.source,
            Some(Slip::SeparationByWithin) => within(&one.source, &other.source) || within(&other.source, &one.source),
            Some(Slip::SeparationFromArguments) => {
                touches(&one.source, asked.first) && touches(&other.source, asked.second)
            }
            Some(Slip::SeparationWithinFirst) => {
                one.source.intersection(&other.source).any(|basic| asked.first.contains(basic))
            }
            Some(Slip::SeparationOfTwoRules) => shared && !ptr::eq(one, other),
            Some(Slip::SeparationOfTwoTypes) => shared && one.source_field != other.source_field,
            Some(Slip::SeparationWithoutSources) => true,
            _ => shared,
        }
    }

    /// Every rule to the second argument has its source within the union of the list.
    fn all_listed(self, asked: &Asked, list: &[Set]) -> bool {
        let list = if self.slips(Slip::LastListedLost) { &list[..list.len() - 1] } else { list };
        let argument = if self.slips(Slip::RosterByFirst) { asked.first } else { asked.second };
        let union: Set = list.iter().flatten().copied().collect();
        let listed = |rule: &&Rule| match self.slip {
            Some(Slip::JudgedOnce(Predicate::Roster)) if asked.judged(rule) => touches(&rule.source, argument),
            Some(Slip::RosterOfOneType) => list.iter().any(|listed| within(&rule.source, listed)),
            Some(Slip::RosterByTouch) => touches(&rule.source, &union),
            _ => within(&rule.source, &union),
        };
        let any_rule = self.slips(Slip::RosterOfAnyRule);
        let mut rules = asked.live.iter().filter(|rule| any_rule || self.meets(asked, &rule.destination, argument));
        match self.slip {
            Some(Slip::RosterOfSome) => rules.any(listed),
            _ => rules.all(listed),
        }
    }

    /// Some rule goes the other way: from the second argument to the first.
    fn has_companion(self, asked: &Asked) -> bool {
        let (from, to) =
            if self.slips(Slip::CompanionSameWay) { (asked.first, asked.second) } else { (asked.second, asked.first) };
        let leaves = |rule: &&Rule| match self.slip {
            Some(Slip::JudgedOnce(Predicate::Companion)) if asked.judged(rule) => touches(&rule.source, to),
            _ => self.meets(asked, &rule.source, from),
        };
        let arrives = |rule: &&Rule| self.meets(asked, &rule.destination, to);
        let live = &asked.live;
        match self.slip {
            Some(Slip::CompanionByTwoRules) => live.iter().any(leaves) && live.iter().any(arrives),
            Some(Slip::CompanionBySource) => live.iter().any(leaves),
            Some(Slip::CompanionByDestination) => live.iter().any(arrives),
            _ => live.iter().any(|rule| leaves(rule) && arrives(rule)),
        }
    }
}
