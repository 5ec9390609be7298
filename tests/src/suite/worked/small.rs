//! Small policies for one clause each. Unless said otherwise, what they hold is of class 5 and action 1, as `ASKED` is.

use crate::compare::{Outcome, Pair};
use crate::draft::{allow, constraint, group, switch, transition, Draft};
use crate::sample::query;
pub use crate::sample::G0;
use mungaite::{Decision, Nearest, Query, Refusal};

/// What is asked, an image, a query, and what the document says.
pub type Row = (&'static str, fn() -> Vec<u8>, Query, Result<Decision, Refusal>);

pub const G1: u16 = 32769;
pub const G2: u16 = 32770;

pub const ASKED: Query = ask(1, 2);

pub const NO_RULES: Result<Decision, Refusal> = Ok(Decision::NotPermitted { nearest: None });

pub const fn n(steps: u8, rule: u16) -> Result<Decision, Refusal> {
    Ok(Decision::NotPermitted { nearest: Some(Nearest { steps, rule }) })
}

pub const fn p(rule: u16) -> Result<Decision, Refusal> {
    Ok(Decision::Permitted { rule })
}

pub const fn u(rule: u16, constraint: u16) -> Result<Decision, Refusal> {
    Ok(Decision::UnKnown { rule, constraint })
}

pub fn run_row(pair: &Pair, (what, image, query, expected): Row) -> Outcome {
    let image = image();
    super::both(pair, what, expected, |subject| subject.decide(&image, query))
}

/// A policy of groups, given by their members, rules and constraints.
pub fn policy(groups: &[&[u16]], rules: &[Vec<u8>], constraints: &[Vec<u8>]) -> Vec<u8> {
    let groups = groups.iter().map(|members| group(members)).collect();
    Draft { groups, rules: rules.to_vec(), constraints: constraints.to_vec() }.image()
}

pub const fn ask(source: u16, destination: u16) -> Query {
    query(source, destination, 5, 1)
}

pub fn on(source: u16, destination: u16) -> Vec<u8> {
    allow(source, destination, 5, 1, 1)
}

pub fn off(source: u16, destination: u16) -> Vec<u8> {
    allow(source, destination, 5, 1, 0)
}

/// An allow rule that is on, of class 7 and action 7.
pub fn other(source: u16, destination: u16) -> Vec<u8> {
    allow(source, destination, 7, 7, 1)
}

/// An allow rule that is on while switch k is; and one of class 7 and action 7.
pub fn waits(k: u8, source: u16, destination: u16) -> Vec<u8> {
    allow(source, destination, 5, 1, switch(k))
}

pub fn other_waits(k: u8, source: u16, destination: u16) -> Vec<u8> {
    allow(source, destination, 7, 7, switch(k))
}

pub fn trans(source: u16, destination: u16) -> Vec<u8> {
    transition(source, destination, 5)
}

pub fn ban(first: u16, second: u16) -> Vec<u8> {
    constraint(5, 1, first, second, 0, &[])
}

pub fn separation(first: u16, second: u16) -> Vec<u8> {
    constraint(5, 1, first, second, 1, &[])
}

pub fn roster(first: u16, second: u16, list: &[u16]) -> Vec<u8> {
    constraint(5, 1, first, second, 2, list)
}

pub fn companion(first: u16, second: u16) -> Vec<u8> {
    constraint(5, 1, first, second, 3, &[])
}
