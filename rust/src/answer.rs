//! Decisions, and the answers of the C functions read back.

use crate::{Nearest, Refusal, Run};
use std::{fmt, ops::Range};

/// What a policy says to a query.
#[must_use]
#[derive(Clone, Copy, Debug, PartialEq, Eq, Hash)]
pub enum Decision {
    /// No rule covers the query.
    NotPermitted {
        /// The rule that came nearest to covering it; `None` where the policy has no rules at all.
        nearest: Option<Nearest>,
    },
    /// A rule covers the query and no constraint fails.
    Permitted {
        /// The lowest rule that covers the query.
        rule: u16,
    },
    /// A rule covers the query and a constraint fails.
    UnKnown {
        /// The lowest rule that covers the query.
        rule: u16,
        /// The lowest constraint that fails.
        constraint: u16,
    },
}

/// A decision without the numbers that come with it.
///
/// Kinds are ordered NotPermitted, Permitted, UnKnown. That is the order in which a policy that grows may move an
/// answer: more rules and constraints and more switches on never lower it, unless a companion constraint finds its
/// companion. Decisions themselves have no order, since the numbers named with them say nothing about it.
///
/// ```
/// use mungaite::{Decision, Kind};
///
/// let answer = Decision::UnKnown { rule: 1, constraint: 0 };
/// assert!(answer.kind() > Kind::Permitted && Kind::Permitted > Kind::NotPermitted);
/// ```
#[derive(Clone, Copy, Debug, PartialEq, Eq, PartialOrd, Ord, Hash)]
pub enum Kind {
    /// No rule covers the query.
    NotPermitted,
    /// A rule covers the query and no constraint fails.
    Permitted,
    /// A rule covers the query and a constraint fails.
    UnKnown,
}

impl Decision {
    /// Which of the three decisions it is.
    pub fn kind(self) -> Kind {
        match self {
            Decision::NotPermitted { .. } => Kind::NotPermitted,
            Decision::Permitted { .. } => Kind::Permitted,
            Decision::UnKnown { .. } => Kind::UnKnown,
        }
    }

    /// Whether the answer is Permitted.
    pub fn is_permitted(self) -> bool {
        self.kind() == Kind::Permitted
    }
}

impl fmt::Display for Decision {
    fn fmt(&self, f: &mut fmt::Formatter<'_>) -> fmt::Result {
        match self {
            Decision::NotPermitted { nearest: None } => write!(f, "NotPermitted, no rules"),
            Decision::NotPermitted { nearest: Some(nearest) } => write!(f, "NotPermitted, nearest {nearest}"),
            Decision::Permitted { rule } => write!(f, "Permitted, rule {rule}"),
            Decision::UnKnown { rule, constraint } => write!(f, "UnKnown, rule {rule}, constraint {constraint}"),
        }
    }
}

/// The fourth part, where a rule's number stands otherwise, of a denial by a policy without rules.
const NO_RULES: u16 = u16::MAX;

/// The four parts of an answer, the highest first.
fn parts(answer: u64) -> [u16; 4] {
    [48, 32, 16, 0].map(|shift| (answer >> shift) as u16)
}

/// An answer that the interface does not have: the linked library is not the one that this crate is for.
fn foreign(answer: u64) -> ! {
    panic!("libmungaite.a gave {answer:#018x}, which is no answer of its interface")
}

pub(crate) fn checked(answer: u64) -> Result<(), Refusal> {
    match parts(answer) {
        [0, 0, 0, 0] => Ok(()),
        [0, 2, number, place] => Err(Refusal { number, place }),
        _ => foreign(answer),
    }
}

pub(crate) fn decided(answer: u64) -> Result<Decision, Refusal> {
    match parts(answer) {
        [0, 0, 0, NO_RULES] => Ok(Decision::NotPermitted { nearest: None }),
        [0, 0, steps @ 0..=4, rule] => {
            Ok(Decision::NotPermitted { nearest: Some(Nearest { steps: steps as u8, rule }) })
        }
        [0, 1, 0, rule] => Ok(Decision::Permitted { rule }),
        [0, 3, rule, constraint] => Ok(Decision::UnKnown { rule, constraint }),
        [0, 2, number, place] => Err(Refusal { number, place }),
        _ => foreign(answer),
    }
}

pub(crate) fn ran(answer: u64) -> Result<Run, Refusal> {
    match parts(answer) {
        [0, 1, 0, 0] => Ok(Run::Fit),
        [0, 0, 0, row] => Ok(Run::Unfit { row: usize::from(row) }),
        [0, 2, number, place] => Err(Refusal { number, place }),
        _ => foreign(answer),
    }
}

pub(crate) fn found(answer: u64) -> Result<Range<usize>, Refusal> {
    match parts(answer) {
        [0, 1, place, length] => Ok(usize::from(place)..usize::from(place) + usize::from(length)),
        [0, 2, number, place] => Err(Refusal { number, place }),
        _ => foreign(answer),
    }
}

pub(crate) fn added(answer: u64) -> Result<u16, Refusal> {
    match parts(answer) {
        [0, 1, 0, number] => Ok(number),
        [0, 2, number, place] => Err(Refusal { number, place }),
        _ => foreign(answer),
    }
}

/// The length of the image that was written to a buffer.
pub(crate) fn converted(answer: u64, buffer: &[u8]) -> Result<usize, Refusal> {
    match parts(answer) {
        [0, 1, 0, length] if usize::from(length) <= buffer.len() => Ok(usize::from(length)),
        [0, 2, number, place] => Err(Refusal { number, place }),
        _ => foreign(answer),
    }
}

/// The length of the image that was built in a buffer, or a refusal's number and its place in the text.
pub(crate) fn built(answer: u64, text: &[u8], buffer: &[u8]) -> Result<usize, (u16, usize)> {
    let [number, ..] = parts(answer);
    let rest = usize::try_from(answer & (u64::MAX >> 16)).unwrap_or_else(|_| foreign(answer));
    match number {
        0 if rest <= buffer.len() => Ok(rest),
        1.. if rest <= text.len() => Err((number, rest)),
        _ => foreign(answer),
    }
}
