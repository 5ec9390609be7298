//! The policies and queries that the tables are made of.

mod asked;
pub mod constraints;
mod largest;
mod mix;
pub mod search;
pub mod sizes;
pub mod switched;
pub mod texts;
pub mod twins;
