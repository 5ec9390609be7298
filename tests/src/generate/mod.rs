//! Inputs from a seed.
//!
//! - `alphabet`: the few types, classes, actions and switches that a case is made of, so that its records meet
//! - `policy`: random policies
//! - `groups`: groups that are no twins of others, and such that are
//! - `old`: images from the time when twins were accepted
//! - `query`: random queries on them
//! - `damage`: images and records with something wrong
//! - `pairs`: a policy and one that holds it
//! - `cases`: the inputs of each call, put together
//! - `text`, `damage_text`: texts, and texts with something wrong

mod alphabet;
mod cases;
mod damage;
mod damage_text;
mod groups;
mod old;
mod pairs;
mod policy;
mod query;
mod text;

pub use cases::{add_case, check_case, decide_case, draft_case, permit_case, policy_case, record_case, run_case};
pub use old::{convert_case, old_case, OldCase};
pub use pairs::{pair_case, pair_without, HeldPair, Term};
pub use text::{build_case, compile_case};
