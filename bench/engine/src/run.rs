//! Many queries on one image.

use crate::check::check;
use crate::format::refusal;
use crate::groups::Groups;
use crate::opened::Opened;
use mungaite::{Decision, Query, Refusal, Run, MOST_ROWS};

/// Checks the image once, then answers each row in its slot. A refusal of the call leaves the slots as they were.
pub fn run(image: &[u8], queries: &[Query], answers: &mut [Result<Decision, Refusal>]) -> Result<Run, Refusal> {
    check(image)?;
    check_counts(queries.len(), answers.len())?;
    let groups = Groups::find(image);
    let mut opened = Opened::new(image, &groups);
    Ok(answer_rows(queries, answers, |query| opened.decide(query)))
}

/// Causes 16 and 17.
pub fn check_counts(rows: usize, slots: usize) -> Result<(), Refusal> {
    if !(1..=MOST_ROWS).contains(&rows) {
        return Err(refusal(16, 0));
    }
    if slots != rows {
        return Err(refusal(17, 0));
    }
    Ok(())
}

#[inline]
pub fn answer_rows(
    queries: &[Query],
    answers: &mut [Result<Decision, Refusal>],
    mut decide: impl FnMut(Query) -> Result<Decision, Refusal>,
) -> Run {
    let mut run = Run::Fit;
    for (row, (slot, &query)) in answers.iter_mut().zip(queries).enumerate() {
        *slot = decide(query);
        if run == Run::Fit && !matches!(slot, Ok(Decision::Permitted { .. })) {
            run = Run::Unfit { row };
        }
    }
    run
}
