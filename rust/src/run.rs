//! Many queries on one image, with one check.

use crate::{answer, raw, Decision, Query, Refusal};
use std::fmt;

/// The most rows that a run takes.
pub const MOST_ROWS: usize = 64;

/// What a run says of its rows as a whole.
#[must_use]
#[derive(Clone, Copy, Debug, PartialEq, Eq, Hash)]
pub enum Run {
    /// Every row is Permitted.
    Fit,
    /// Some row is NotPermitted, UnKnown or refused.
    Unfit {
        /// The first such row, counted from 0.
        row: usize,
    },
}

/// ```
/// assert_eq!(mungaite::Run::Unfit { row: 2 }.to_string(), "not fit, row 2 is not Permitted");
/// ```
impl fmt::Display for Run {
    fn fmt(&self, f: &mut fmt::Formatter<'_>) -> fmt::Result {
        match self {
            Run::Fit => write!(f, "fit"),
            Run::Unfit { row } => write!(f, "not fit, row {row} is not Permitted"),
        }
    }
}

/// Numbers in a row: source, destination, class, action, and the two halves of the switch word.
const ROW: usize = 6;

/// Enough for every run that is answered, and for one row too many: with more rows or slots a call is refused alike.
const ROOM: usize = MOST_ROWS + 1;

/// Decides 1 to 64 rows on an image, which is checked once, and says whether every row is Permitted. Each row has its
/// own switches.
///
/// Each row's answer, a refused row's too, is what [`decide`](crate::decide) gives for it, and every row is answered. A
/// refused call leaves `answers` as it was: the image's causes come first, then a wrong number of rows, then `answers`
/// of another length than `queries`.
///
/// ```
/// use mungaite::{run, Decision, Nearest, Query, Run};
///
/// // Allow type 10 to type 21, class 5, action 1, on.
/// let image = [1, 0, 20, 0, 0, 0, 1, 0, 0, 11, 2, 0, 10, 0, 21, 0, 5, 0, 1, 1];
/// let covered = Query::new(10, 21, 5, 1);
/// let queries = [covered, Query { source: 11, ..covered }, Query { source: 1024, ..covered }];
///
/// let mut answers = [Ok(Decision::NotPermitted { nearest: None }); 3];
/// assert_eq!(run(&image, &queries, &mut answers), Ok(Run::Unfit { row: 1 }));
/// assert_eq!(answers[0], Ok(Decision::Permitted { rule: 0 }));
/// assert_eq!(answers[1], Ok(Decision::NotPermitted { nearest: Some(Nearest { steps: 1, rule: 0 }) }));
/// assert_eq!(answers[2].unwrap_err().number, 8);
///
/// assert_eq!(run(&image, &[], &mut answers).unwrap_err().number, 16);
/// assert_eq!(run(&image, &queries, &mut answers[..2]).unwrap_err().number, 17);
/// ```
pub fn run(image: &[u8], queries: &[Query], answers: &mut [Result<Decision, Refusal>]) -> Result<Run, Refusal> {
    let mut numbers = [0; ROW * ROOM];
    for (row, query) in numbers.chunks_exact_mut(ROW).zip(queries) {
        row.copy_from_slice(&query.numbers());
    }
    let mut slots = [0; ROOM];
    // SAFETY: the two lists have room for the counts given with them, the image's pointer and length are those of one
    // slice, and the slots overlap neither.
    let run = answer::ran(unsafe {
        raw::mungaite_run(
            numbers.as_ptr(),
            ROW * queries.len().min(ROOM),
            slots.as_mut_ptr(),
            answers.len().min(ROOM),
            image.as_ptr(),
            image.len(),
        )
    })?;
    for (answer, slot) in answers.iter_mut().zip(slots) {
        *answer = answer::decided(slot);
    }
    Ok(run)
}
