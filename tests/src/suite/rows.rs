//! Runs, on the engine's answers alone: a row's answer is its own, and the run says what its answers do.

use crate::compare::{equal, hex, unanswered, Outcome, Pair};
use crate::generate::run_case;
use crate::random::Random;
use crate::runner::{Cases, Count};
use crate::sample::query;
use crate::subject::{Answer, Subject};
use mungaite::{Decision, Query, Run};

pub const ALONE: Cases = Cases { name: "run/alone", count: Count::Random(3_000), run: alone };
pub const AMONG_OTHERS: Cases = Cases { name: "run/among-others", count: Count::Random(3_000), run: among_others };

pub const TESTS: &[Cases] = &[ALONE, AMONG_OTHERS];

/// Each row as a run of its own gets what the decision gives.
fn alone(pair: &Pair, seed: u64) -> Outcome {
    let (image, queries) = rows(pair.engine, seed);
    for query in queries {
        let answers = answers(pair.engine, &image, &[query])?;
        equal("run of one row", answers[0], pair.engine.decide(&image, query), || shown(query, &image))?;
    }
    Ok(())
}

/// The rows in another order, some of them replaced: a row that is left keeps its answer.
fn among_others(pair: &Pair, seed: u64) -> Outcome {
    let (image, mut queries) = rows(pair.engine, seed);
    let random = &mut Random::new(seed);
    let first = answers(pair.engine, &image, &queries)?;
    let mut order: Vec<usize> = (0..queries.len()).collect();
    random.shuffle(&mut order);
    let others = [query(1024, 0, 0, 0), queries[0], queries[queries.len() - 1]];
    let moved: Vec<Option<usize>> = order.into_iter().map(|row| (!random.percent(30)).then_some(row)).collect();
    queries = moved.iter().map(|row| row.map_or_else(|| random.pick(&others), |row| queries[row])).collect();
    let second = answers(pair.engine, &image, &queries)?;
    for (now, before) in moved.into_iter().enumerate() {
        if let Some(before) = before {
            equal("row among others", second[now], first[before], || shown(queries[now], &image))?;
        }
    }
    Ok(())
}

/// An image that is accepted, and 1 to 64 rows.
fn rows(engine: &dyn Subject, seed: u64) -> (Vec<u8>, Vec<Query>) {
    let cases = (0..).map(|further| run_case(seed.wrapping_add(further)));
    let taken = |(image, queries, _): &(Vec<u8>, Vec<Query>, usize)| {
        matches!(queries.len(), 1..=64) && engine.check(image).is_ok()
    };
    let (image, queries, _) = cases.into_iter().find(taken).expect("most cases are accepted");
    (image, queries)
}

/// The answers of a run that is not refused. It is fit where all of them are Permitted; else it names the first that is
/// not.
pub fn answers(engine: &dyn Subject, image: &[u8], queries: &[Query]) -> Result<Vec<Answer>, String> {
    let mut answers = unanswered(queries.len());
    let said = engine.run(image, queries, &mut answers);
    let unfit = answers.iter().position(|answer| !matches!(answer, Ok(Decision::Permitted { .. })));
    equal("run", said, Ok(unfit.map_or(Run::Fit, |row| Run::Unfit { row })), || {
        format!("{queries:?} on {}", hex(image))
    })?;
    Ok(answers)
}

fn shown(query: Query, image: &[u8]) -> String {
    format!("{query:?} on {}", hex(image))
}
