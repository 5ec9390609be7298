//! "How a draw is decided": cover, and the decision.

use super::policy::{touches, within, Constraint, Policy, Request, Rule, Set};
use super::slip::Reader;
use super::{Model, Slip};
use mungaite::Decision;

/// What an applying constraint says to a covered query.
pub struct Verdict {
    pub predicate: u8,
    /// The query's source is within the first argument and its destination within the second.
    pub concerns: bool,
    pub holds: bool,
}

impl Model {
    pub fn judge(self, policy: &Policy, query: &Request) -> Decision {
        let covering = self.covering(policy, query);
        let rule = if self.slips(Slip::HighestRule) { covering.last() } else { covering.first() };
        let constraint = self.failing(policy, query, rule.copied());
        match (rule, constraint) {
            (None, Some(c)) if self.slips(Slip::FailureLiftsUncovered) => {
                Decision::UnKnown { rule: 0, constraint: c as u16 }
            }
            (None, _) => Decision::NotPermitted { nearest: self.nearest(policy, query) },
            (Some(&r), None) => Decision::Permitted { rule: r as u16 },
            (Some(&r), Some(c)) => Decision::UnKnown { rule: r as u16, constraint: c as u16 },
        }
    }

    /// What each applying constraint says to a query that some rule covers.
    pub fn judge_constraints(self, policy: &Policy, query: &Request) -> Vec<Verdict> {
        if !policy.rules.iter().any(|rule| self.covers(rule, query)) {
            return Vec::new();
        }
        let applying = policy.constraints.iter().filter(|constraint| self.applies(constraint, query));
        applying
            .map(|constraint| Verdict {
                predicate: constraint.predicate,
                concerns: self.concerns(constraint, query),
                holds: self.holds(constraint, policy, query),
            })
            .collect()
    }

    /// The rules that cover the query.
    fn covering(self, policy: &Policy, query: &Request) -> Vec<usize> {
        let rules = &policy.rules;
        let searched = if self.slips(Slip::LastRuleSkipped) { rules.len().saturating_sub(1) } else { rules.len() };
        (0..searched).filter(|&n| self.covers(&rules[n], query)).collect()
    }

    /// The lowest constraint that applies and whose predicate is false.
    fn failing(self, policy: &Policy, query: &Request, rule: Option<usize>) -> Option<usize> {
        let constraints = &policy.constraints;
        let transition = rule.is_some_and(|n| policy.rules[n].allow.is_none());
        if self.slips(Slip::TransitionUnconstrained) && transition {
            return None;
        }
        let mut applying: Vec<usize> =
            (0..constraints.len()).filter(|&n| self.applies(&constraints[n], query)).collect();
        match self.slip {
            Some(Slip::LastConstraintSkipped) => applying.retain(|&n| n + 1 < constraints.len()),
            Some(Slip::FirstApplyingOnly) => applying.truncate(1),
            _ => {}
        }
        let holds = |&n: &usize| self.holds(&constraints[n], policy, query);
        let failing: Vec<usize> = applying.iter().copied().filter(|n| !holds(n)).collect();
        match self.slip {
            Some(Slip::HighestConstraint) => failing.last().copied(),
            Some(Slip::LowestApplying) if !failing.is_empty() => applying.first().copied(),
            Some(Slip::AllMustFail) if failing.len() < applying.len() => None,
            _ => failing.first().copied(),
        }
    }

    fn covers(self, rule: &Rule, query: &Request) -> bool {
        let inside: fn(&Set, &Set) -> bool = match self.slip {
            Some(Slip::CoverByTouch) => touches,
            Some(Slip::CoverOutward) => |asked, ruled| within(ruled, asked),
            Some(Slip::CoverBySameSet) => |asked, ruled| asked == ruled,
            _ => within,
        };
        let (mut source, mut destination) = if self.slips(Slip::SwappedCover) {
            (inside(&query.source, &rule.destination), inside(&query.destination, &rule.source))
        } else {
            (inside(&query.source, &rule.source), inside(&query.destination, &rule.destination))
        };
        match self.slip {
            Some(Slip::SourceNotCompared) => source = true,
            Some(Slip::DestinationNotCompared) => destination = true,
            Some(Slip::GroupJudgedOnce) if rule.source_field == rule.destination_field => source = destination,
            _ => {}
        }
        let rest = match &rule.allow {
            Some(allow) => {
                (self.is_on(Reader::Cover, allow, query) || self.slips(Slip::OffRuleCovers))
                    && (rule.class == query.class || self.slips(Slip::ClassNotCompared))
                    && (allow.action == query.action || self.slips(Slip::ActionNotCompared))
            }
            None if self.slips(Slip::TransitionOfOneClass) => rule.class == query.class,
            None => !self.slips(Slip::TransitionNeverCovers),
        };
        source && destination && rest
    }

    pub fn applies(self, constraint: &Constraint, query: &Request) -> bool {
        (constraint.class == query.class || self.slips(Slip::ConstraintOfAnyClass))
            && (constraint.action == query.action || self.slips(Slip::ConstraintOfAnyAction))
    }
}
