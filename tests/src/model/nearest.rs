//! Request [2] of document 02: how near a query came that no rule covers.

use super::policy::{touches, within, Policy, Request, Rule, Set};
use super::slip::Reader;
use super::{Model, Slip};
use mungaite::Nearest;

impl Model {
    /// The greatest number of steps over all rules and the lowest rule that has it; nothing where there are no rules.
    pub fn nearest(self, policy: &Policy, query: &Request) -> Option<Nearest> {
        if policy.rules.is_empty() {
            return self.slips(Slip::NoRulesAreRuleZero).then_some(Nearest { steps: 0, rule: 0 });
        }
        let steps = |n: &usize| self.steps(&policy.rules[*n], query);
        let mut rules: Vec<usize> = (0..policy.rules.len()).filter(|&n| self.compared(policy, query, n)).collect();
        if self.slips(Slip::FirstStepEnds) {
            rules.truncate(rules.iter().position(|n| steps(n) > 0).map_or(rules.len(), |first| first + 1));
        }
        let most = match self.slip {
            Some(Slip::FewestSteps) => rules.iter().map(steps).min()?,
            _ => rules.iter().map(steps).max()?,
        };
        let rule = match self.slip {
            Some(Slip::HighestNearest) => rules.into_iter().rfind(|n| steps(n) == most)?,
            Some(Slip::RuleZeroNearest) => 0,
            _ => rules.into_iter().find(|n| steps(n) == most)?,
        };
        Some(Nearest { steps: most as u8, rule: rule as u16 })
    }

    /// Whether a rule is compared with the others: every rule is.
    fn compared(self, policy: &Policy, query: &Request, n: usize) -> bool {
        let allow = &policy.rules[n].allow;
        match self.slip {
            Some(Slip::StepsForgotten) => false,
            Some(Slip::LastRuleNotNear) => n + 1 < policy.rules.len(),
            Some(Slip::OffRulesLeftOut) => allow.as_ref().is_none_or(|allow| self.is_on(Reader::Steps, allow, query)),
            Some(Slip::TransitionsLeftOut) => allow.is_some(),
            _ => true,
        }
    }

    /// How many steps of a rule pass before the first failure.
    fn steps(self, rule: &Rule, query: &Request) -> usize {
        let passes = self.passes(rule, query);
        let leading = passes.iter().take_while(|passes| **passes).count();
        let of_its_class = rule.allow.is_none() && rule.class == query.class;
        let of_another = rule.allow.is_none() && rule.class != query.class;
        match self.slip {
            Some(Slip::AllPassesCount) => passes.into_iter().filter(|passes| *passes).count(),
            Some(Slip::FailedStepCounts) => leading + 1,
            Some(Slip::TransitionHelped) if of_its_class => leading + 1,
            Some(Slip::TransitionHurt) if of_another => 0,
            _ => leading,
        }
    }

    /// The steps in their order, and whether each passes: condition, source, destination, class, action. A transition
    /// always passes the first, and source and destination are all that it asks.
    fn passes(self, rule: &Rule, query: &Request) -> Vec<bool> {
        let inside: fn(&Set, &Set) -> bool = match self.slip {
            Some(Slip::NearByTouch) => touches,
            Some(Slip::NearOutward) => |asked, ruled| within(ruled, asked),
            Some(Slip::NearBySameSet) => |asked, ruled| asked == ruled,
            _ => within,
        };
        let source = inside(&query.source, &rule.source);
        let destination = inside(&query.destination, &rule.destination);
        let class = rule.class == query.class;
        let mut passes = match &rule.allow {
            Some(allow) => {
                let on = self.is_on(Reader::Steps, allow, query);
                vec![on, source, destination, class, allow.action == query.action]
            }
            None => vec![true, source, destination],
        };
        match (self.slip, rule.allow.is_some()) {
            (Some(Slip::OffRuleGoesOn), _) => passes[0] = true,
            (Some(Slip::ConditionLast), true) => passes.rotate_left(1),
            (Some(Slip::ClassBeforeSource), true) => passes[1..4].rotate_right(1),
            (Some(Slip::DestinationBeforeSource), _) => passes.swap(1, 2),
            (Some(Slip::ActionBeforeClass), true) => passes.swap(3, 4),
            (Some(Slip::TransitionOfOneClass), false) => passes.push(class),
            (Some(Slip::TransitionWithoutFirstStep), false) => drop(passes.remove(0)),
            _ => {}
        }
        passes
    }
}
