//! How near a denied query came to being covered.

use std::fmt;

/// The rule that came nearest to covering a query that no rule covers.
///
/// A rule is put to a query in five steps: condition, source, destination, class, action. Of all rules the nearest is
/// the one that passes the most steps before the first that fails, and the lowest of those. A rule that is off, by
/// itself or by its switch, passes none: its [`Condition`](crate::Condition) tells which. A transition always passes the
/// first step and has no class and no action step, so it stops at its source or its destination.
///
/// ```
/// use mungaite::{decide, Decision, Nearest, Query, Step};
///
/// // Allow type 10 to type 21, class 5, action 1, on.
/// let image = [1, 0, 20, 0, 0, 0, 1, 0, 0, 11, 2, 0, 10, 0, 21, 0, 5, 0, 1, 1];
/// let denied = decide(&image, Query::new(10, 21, 5, 2)).unwrap();
/// let nearest = Nearest { steps: 4, rule: 0 };
/// assert_eq!(denied, Decision::NotPermitted { nearest: Some(nearest) });
/// assert_eq!(nearest.stopped_at(), Step::Action);
/// assert_eq!(denied.to_string(), "NotPermitted, nearest rule 0, which stops at the action");
/// ```
#[derive(Clone, Copy, Debug, PartialEq, Eq, Hash)]
pub struct Nearest {
    /// How many steps passed before the first that failed, 0 to 4.
    pub steps: u8,
    /// The lowest rule that passes so many.
    pub rule: u16,
}

/// The steps in which a rule is put to a query, in their order. Each one's value is how many come before it.
#[derive(Clone, Copy, Debug, PartialEq, Eq, PartialOrd, Ord, Hash)]
pub enum Step {
    /// The rule is on, by itself or by its switch.
    Condition = 0,
    /// The query's source is within the rule's.
    Source = 1,
    /// The query's destination is within the rule's.
    Destination = 2,
    /// The query's class is the rule's.
    Class = 3,
    /// The query's action is the rule's.
    Action = 4,
}

impl Step {
    /// The five steps, in order.
    pub const ALL: [Step; 5] = [Step::Condition, Step::Source, Step::Destination, Step::Class, Step::Action];
}

impl Nearest {
    /// The step that failed. At [`Step::Action`] it is all that keeps the rule from covering the query; behind an
    /// earlier step another may fail too.
    ///
    /// # Panics
    ///
    /// If there are more than 4 steps, which no answer has.
    pub fn stopped_at(self) -> Step {
        Step::ALL[usize::from(self.steps)]
    }
}

impl fmt::Display for Step {
    fn fmt(&self, f: &mut fmt::Formatter<'_>) -> fmt::Result {
        f.write_str(match self {
            Step::Condition => "condition",
            Step::Source => "source",
            Step::Destination => "destination",
            Step::Class => "class",
            Step::Action => "action",
        })
    }
}

/// The rule and the step that failed.
///
/// # Panics
///
/// As [`Nearest::stopped_at`] does.
impl fmt::Display for Nearest {
    fn fmt(&self, f: &mut fmt::Formatter<'_>) -> fmt::Result {
        write!(f, "rule {}, which stops at the {}", self.rule, self.stopped_at())
    }
}
