//! Document 01's worked cases with its answers, and further rows whose answers were worked out by hand from its clauses
//! and from requests [1] to [7]. Both engines and the model must give them.

mod add;
mod build;
mod build_buffers;
mod build_numbers;
mod build_refused;
mod build_words;
mod check;
mod compile;
mod constraints;
mod convert;
mod convert_answers;
mod convert_buffers;
mod convert_numbers;
mod convert_program;
mod decide;
mod decide_numbers;
mod full;
mod many;
mod nearest;
mod nearest_rows;
mod order;
mod permit;
mod predicates;
mod record;
mod rules;
mod run;
mod run_numbers;
mod separation;
mod small;
mod switch_predicates;
mod switch_rows;
mod switches;
mod twins;
mod twins_added;
mod twins_calls;
mod twins_text;

use crate::compare::{equal, Outcome, Pair};
use crate::runner::{Cases, Count};
use crate::subject::Subject;
use mungaite::Refusal;
use predicates::{COMPANION, ROSTER};
use std::fmt::Debug;

pub const TESTS: &[Cases] = &[
    Cases { name: "worked/check", count: Count::Listed(check::ROWS.len() as u64), run: check::run },
    Cases { name: "worked/decide", count: Count::Listed(decide::ROWS.len() as u64), run: decide::run },
    Cases { name: "worked/rules", count: Count::Listed(rules::ROWS.len() as u64), run: rules::run },
    Cases { name: "worked/constraints", count: Count::Listed(constraints::ROWS.len() as u64), run: constraints::run },
    Cases { name: "worked/separation", count: Count::Listed(separation::ROWS.len() as u64), run: separation::run },
    Cases { name: "worked/roster", count: Count::Listed(ROSTER.len() as u64), run: predicates::rosters },
    Cases { name: "worked/companion", count: Count::Listed(COMPANION.len() as u64), run: predicates::companions },
    Cases { name: "worked/switches", count: Count::Listed(switches::ROWS.len() as u64), run: switches::run },
    Cases {
        name: "worked/switch-predicates",
        count: Count::Listed(switch_predicates::ROWS.len() as u64),
        run: switch_predicates::run,
    },
    Cases { name: "worked/switch-each", count: Count::Listed(32), run: switches::each },
    Cases { name: "worked/switch-together", count: Count::Listed(32), run: switches::together },
    Cases { name: "worked/switch-rows", count: Count::Listed(switch_rows::ROWS.len() as u64), run: switch_rows::run },
    Cases { name: "worked/switch-rows-in-turn", count: Count::Listed(3), run: switch_rows::in_turn },
    Cases { name: "worked/order", count: Count::Listed(order::ROWS.len() as u64), run: order::run },
    Cases { name: "worked/full", count: Count::Listed(full::ROWS.len() as u64), run: full::run },
    Cases { name: "worked/full-permit", count: Count::Listed(1), run: full::permit },
    Cases { name: "worked/run", count: Count::Listed(run::ROWS.len() as u64), run: run::run },
    Cases { name: "worked/full-run", count: Count::Listed(1), run: full::as_run },
    Cases { name: "worked/nearest", count: Count::Listed(nearest::ROWS.len() as u64), run: nearest::run },
    Cases {
        name: "worked/nearest-rows",
        count: Count::Listed(nearest_rows::ROWS.len() as u64),
        run: nearest_rows::run,
    },
    Cases { name: "worked/nearest-places", count: Count::Listed(nearest::PLACES.len() as u64), run: nearest::places },
    Cases { name: "worked/record", count: Count::Listed(record::ROWS.len() as u64), run: record::run },
    Cases { name: "worked/add", count: Count::Listed(add::ROWS.len() as u64), run: add::run },
    Cases { name: "worked/permit", count: Count::Listed(permit::ROWS.len() as u64), run: permit::run },
    Cases { name: "worked/permit-left", count: Count::Listed(12), run: permit::left },
    Cases { name: "worked/permit-many", count: Count::Listed(1), run: permit::many },
    Cases { name: "worked/record-longest", count: Count::Listed(record::LONGEST.len() as u64), run: record::longest },
];

/// Texts, and what they build.
pub const TEXTS: &[Cases] = &[
    Cases { name: "worked/build", count: Count::Listed(build::ROWS.len() as u64), run: build::run },
    Cases { name: "worked/build-sample", count: Count::Listed(2), run: build::sample },
    Cases { name: "worked/build-switches", count: Count::Listed(32), run: build::switches },
    Cases {
        name: "worked/build-refused",
        count: Count::Listed(build_refused::ROWS.len() as u64),
        run: build_refused::run,
    },
    Cases {
        name: "worked/build-words",
        count: Count::Listed(build_words::ROWS.len() as u64),
        run: build_refused::words,
    },
    Cases { name: "worked/build-members", count: Count::Listed(1), run: build_refused::members },
    Cases {
        name: "worked/build-buffers",
        count: Count::Listed(build_buffers::ROWS.len() as u64),
        run: build_buffers::run,
    },
    Cases { name: "worked/build-under-9", count: Count::Listed(9), run: build_buffers::under_9 },
    Cases { name: "worked/build-twins", count: Count::Listed(twins_text::ROWS.len() as u64), run: twins_text::run },
    Cases {
        name: "worked/compile-twins",
        count: Count::Listed(twins_text::LINES.len() as u64),
        run: twins_text::lines,
    },
    Cases { name: "worked/compile", count: Count::Listed(compile::ROWS.len() as u64), run: compile::run },
];

/// Twins and old images.
pub const TWINS: &[Cases] = &[
    Cases { name: "worked/twins", count: Count::Listed(twins::ROWS.len() as u64), run: twins::run },
    Cases {
        name: "worked/twins-record",
        count: Count::Listed(twins_calls::RECORDS.len() as u64),
        run: twins_calls::record,
    },
    Cases {
        name: "worked/twins-decide",
        count: Count::Listed(twins_calls::QUERIES.len() as u64),
        run: twins_calls::decide,
    },
    Cases { name: "worked/twins-run", count: Count::Listed(twins_calls::RUNS.len() as u64), run: twins_calls::run },
    Cases { name: "worked/twins-add", count: Count::Listed(twins_calls::ADDED.len() as u64), run: twins_calls::add },
    Cases {
        name: "worked/twins-permit",
        count: Count::Listed(twins_calls::PRINTED.len() as u64),
        run: twins_calls::permit,
    },
    Cases { name: "worked/twins-added", count: Count::Listed(twins_added::ROWS.len() as u64), run: twins_added::run },
    Cases { name: "worked/convert", count: Count::Listed(convert::ROWS.len() as u64), run: convert::run },
    Cases { name: "worked/convert-buffers", count: Count::Listed(convert_buffers::SIZES), run: convert_buffers::sizes },
    Cases {
        name: "worked/convert-old-buffers",
        count: Count::Listed(convert_buffers::SIZES),
        run: convert_buffers::old_sizes,
    },
    Cases {
        name: "worked/convert-refused",
        count: Count::Listed(check::ROWS.len() as u64),
        run: convert_buffers::checked,
    },
    Cases {
        name: "worked/convert-twins",
        count: Count::Listed(twins::ROWS.len() as u64),
        run: convert_buffers::with_twins,
    },
    Cases {
        name: "worked/convert-answers",
        count: Count::Listed(convert_answers::ROWS.len() as u64),
        run: convert_answers::run,
    },
    Cases {
        name: "worked/convert-program",
        count: Count::Listed(convert_program::ROWS.len() as u64),
        run: convert_program::run,
    },
];

/// Rows that only the library can be asked.
pub const OF_THE_LIBRARY: &[Cases] = &[
    Cases { name: "worked/record-sections", count: Count::Listed(6), run: record::no_section },
    Cases {
        name: "worked/decide-numbers",
        count: Count::Listed(decide_numbers::ROWS.len() as u64),
        run: decide_numbers::run,
    },
    Cases { name: "worked/run-counts", count: Count::Listed(run_numbers::ROWS.len() as u64), run: run_numbers::counts },
    Cases { name: "worked/run-every-count", count: Count::Listed(6 * 67), run: run_numbers::every_count },
    Cases {
        name: "worked/convert-numbers",
        count: Count::Listed(convert_numbers::ROWS.len() as u64),
        run: convert_numbers::run,
    },
    Cases { name: "worked/twins-numbers", count: Count::Listed(1), run: convert_numbers::refused },
    Cases { name: "worked/run-kinds", count: Count::Listed(1), run: run_numbers::kinds },
    Cases { name: "worked/run-words", count: Count::Listed(1), run: run_numbers::words },
    Cases {
        name: "worked/build-numbers",
        count: Count::Listed(build_numbers::ROWS.len() as u64),
        run: build_numbers::run,
    },
];

const fn no<T>(number: u16, place: u16) -> Result<T, Refusal> {
    Err(Refusal { number, place })
}

/// Asks the engine, then the model.
fn both<T>(pair: &Pair, what: &str, expected: T, ask: impl Fn(&dyn Subject) -> T) -> Outcome
where
    T: PartialEq + Debug + Clone,
{
    let shown = || what.to_string();
    equal("engine", ask(pair.engine), expected.clone(), shown)?;
    equal("model", ask(&pair.model), expected, shown)
}
