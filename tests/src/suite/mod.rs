//! The tests, in the order in which they run.

mod converts;
mod limits;
mod mutation;
mod mutation_text;
mod mutation_twins;
mod old;
mod order;
mod random;
mod reached;
mod reached_separation;
mod reached_steps;
mod reached_switches;
mod reached_text;
mod reached_twins;
mod round_trip;
mod rows;
mod steps;
mod streams;
mod streams_compile;
mod streams_convert;
mod streams_failing;
mod sweep;
mod switches;
mod tally;
mod text_rows;
mod texts;
mod watched;
mod worked;

use crate::runner::{Cases, Run};

/// The tests that compare the engine with the model on generated inputs, the cheapest first.
fn differential() -> Vec<Cases> {
    [random::TESTS, sweep::TESTS, limits::TESTS].concat()
}

/// The tests of any engine.
fn of_any() -> Vec<Cases> {
    let properties = [rows::TESTS, steps::TESTS, switches::TESTS, round_trip::TESTS, order::TESTS, old::TESTS].concat();
    let on_images = [differential(), properties, sweep::PROGRAM.to_vec()].concat();
    [worked::TESTS, worked::TEXTS, worked::TWINS, &on_images, texts::TESTS, text_rows::TESTS, converts::TESTS].concat()
}

pub fn all(run: &mut Run) {
    for test in of_any()
        .iter()
        .chain(worked::OF_THE_LIBRARY)
        .chain(streams::TESTS)
        .chain(streams_compile::TESTS)
        .chain(streams_convert::TESTS)
        .chain(streams_failing::TESTS)
    {
        run.cases(test);
    }
    for test in &of_any() {
        run.cases_by_hand(test);
    }
    let mutations = [mutation::tests(), mutation_text::tests(), mutation_twins::tests()];
    for test in reached::tests().iter().chain(mutations.iter().flatten()) {
        run.whole(test);
    }
}
