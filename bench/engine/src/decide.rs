//! The decision of a query, from the bytes.

use crate::check::check;
use crate::groups::Groups;
use crate::opened::Opened;
use mungaite::{Decision, Query, Refusal};

/// Checks the image, then decides.
pub fn decide(image: &[u8], query: Query) -> Result<Decision, Refusal> {
    check(image)?;
    decide_checked(image, query)
}

/// Decides on an image that `check` accepted before.
pub fn decide_checked(image: &[u8], query: Query) -> Result<Decision, Refusal> {
    let groups = Groups::find(image);
    Opened::new(image, &groups).decide(query)
}

/// Where a rule covers: from that rule and the constraint that does not hold, if there is one.
#[inline]
pub fn covered(rule: usize, broken: Option<usize>) -> Decision {
    let rule = rule as u16;
    match broken {
        None => Decision::Permitted { rule },
        Some(constraint) => Decision::UnKnown { rule, constraint: constraint as u16 },
    }
}
