//! The yardstick: a permission engine in plain Rust, without proofs.
//!
//! It reads the same image, gives the same answers and refuses with the same numbers as Mungaite. It takes the types of
//! queries and answers from the crate `mungaite`, and calls nothing of it. It works from the bytes; only `prepared`
//! keeps anything between two decisions.

#![forbid(unsafe_code)]

mod add;
mod build;
mod check;
mod constraints;
mod convert;
mod decide;
mod format;
mod give;
mod groups;
mod inner;
mod nearest;
mod opened;
mod predicate;
mod prepared;
mod program;
mod record;
mod row;
mod rules;
mod run;
mod set;
mod sets;
mod switches;
mod twins;
mod types;

pub use add::add;
pub use build::{build, BuildRefusal};
pub use check::check;
pub use convert::convert;
pub use decide::{decide, decide_checked};
pub use give::record;
pub use prepared::Prepared;
pub use program::permit;
pub use run::run;
