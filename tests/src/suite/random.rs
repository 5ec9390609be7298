//! Each call on random inputs.

use crate::compare::{Outcome, Pair};
use crate::generate::{add_case, check_case, decide_case, permit_case, record_case, run_case};
use crate::runner::{Cases, Count};

pub const DECIDE: Cases = Cases { name: "random/decide", count: Count::Random(20_000), run: decide };
pub const RUN: Cases = Cases { name: "random/run", count: Count::Random(12_000), run };
pub const CHECK: Cases = Cases { name: "random/check", count: Count::Random(60_000), run: check };
pub const RECORD: Cases = Cases { name: "random/record", count: Count::Random(30_000), run: record };
pub const ADD: Cases = Cases { name: "random/add", count: Count::Random(40_000), run: add };
const PERMIT: Cases = Cases { name: "random/permit", count: Count::Random(400), run: permit };

pub const TESTS: &[Cases] = &[DECIDE, RUN, CHECK, RECORD, ADD, PERMIT];

fn check(pair: &Pair, seed: u64) -> Outcome {
    pair.check(&check_case(seed))
}

fn record(pair: &Pair, seed: u64) -> Outcome {
    let (image, section, n) = record_case(seed);
    pair.record(&image, section, n)
}

fn decide(pair: &Pair, seed: u64) -> Outcome {
    let (image, queries) = decide_case(seed);
    queries.iter().try_for_each(|query| pair.decide(&image, *query))
}

fn run(pair: &Pair, seed: u64) -> Outcome {
    let (image, queries, slots) = run_case(seed);
    pair.run(&image, &queries, slots)
}

fn add(pair: &Pair, seed: u64) -> Outcome {
    let (buffer, record) = add_case(seed);
    pair.add(&buffer, &record)
}

fn permit(pair: &Pair, seed: u64) -> Outcome {
    pair.permit(&permit_case(seed))
}
