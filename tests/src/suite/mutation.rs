//! The tests have teeth: a worked row notices each mistake that the model can make, and so do the generated inputs.

use super::{differential, order, round_trip, rows, steps, switches, worked};
use crate::compare::Pair;
use crate::model::{Mistake, Model, Predicate, Reader, Slip};
use crate::runner::{run_case, Cases, Finding, Run, Whole, PANIC};

/// Mistakes that the tests of the engine's answers alone must notice, with the mistaken model in the engine's place.
const PROPERTIES: [(Cases, Slip); 46] = [
    (order::PAIRS, Slip::LastRuleSkipped),
    (order::PAIRS, Slip::CoverByTouch),
    (order::PAIRS, Slip::SeparationOfTwoRules),
    (order::PAIRS, Slip::SwitchAtZero),
    (order::PAIRS, Slip::SwitchInverted),
    (rows::ALONE, Slip::LastRowSkipped),
    (rows::ALONE, Slip::RefusedRowFits),
    (rows::AMONG_OTHERS, Slip::StopsAtUnfitRow),
    (rows::AMONG_OTHERS, Slip::RowsFromOne),
    (rows::AMONG_OTHERS, Slip::SourceKept),
    (rows::AMONG_OTHERS, Slip::DestinationKept),
    (rows::AMONG_OTHERS, Slip::FailureKept),
    (rows::AMONG_OTHERS, Slip::NearestKept),
    (rows::AMONG_OTHERS, Slip::FirstWordKept),
    (rows::AMONG_OTHERS, Slip::VerdictKept(Predicate::Separation)),
    (rows::AMONG_OTHERS, Slip::VerdictKeptBack(Predicate::Roster)),
    (rows::AMONG_OTHERS, Slip::VerdictOfWordBefore(Predicate::Separation)),
    (rows::ALONE, Slip::HalvesSwapped),
    (steps::ONE_BY_ONE, Slip::HighestNearest),
    (steps::ONE_BY_ONE, Slip::FirstStepEnds),
    (steps::ONE_BY_ONE, Slip::LastRuleNotNear),
    (steps::ONE_BY_ONE, Slip::RuleZeroNearest),
    (steps::ONE_BY_ONE, Slip::OffRulesLeftOut),
    (steps::ONE_BY_ONE, Slip::FewestSteps),
    (steps::FORGOTTEN, Slip::OffRuleCovers),
    (switches::NONE, Slip::OffWraps),
    (switches::NONE, Slip::OnWraps),
    (switches::REPLACED, Slip::SwitchAbove),
    (switches::REPLACED, Slip::SwitchBelow),
    (switches::REPLACED, Slip::SwitchOn(Reader::Each)),
    (switches::REPLACED, Slip::SwitchOff(Reader::Steps)),
    (switches::REPLACED, Slip::SwitchOn(Reader::Separation)),
    (switches::REPLACED, Slip::SwitchOff(Reader::Roster)),
    (switches::REPLACED, Slip::SwitchOff(Reader::Companion)),
    (switches::REPLACED_ROWS, Slip::VerdictKept(Predicate::Separation)),
    (switches::REPLACED_ROWS, Slip::VerdictKept(Predicate::Roster)),
    (switches::REPLACED_ROWS, Slip::VerdictKept(Predicate::Companion)),
    (switches::REPLACED_ROWS, Slip::VerdictKeptBack(Predicate::Companion)),
    (switches::REPLACED_ROWS, Slip::VerdictOfWordBefore(Predicate::Roster)),
    (switches::REPLACED_ROWS, Slip::FirstWordKept),
    (switches::TURNED_ON, Slip::SwitchAtZero),
    (switches::TURNED_ON, Slip::SwitchInverted),
    (round_trip::MIXED, Slip::AddedAtImageEnd),
    (round_trip::RANDOM, Slip::RestCleared),
    (round_trip::RANDOM, Slip::RecordPastEnd),
    (round_trip::RANDOM, Slip::LimitReached(mungaite::Section::Rules)),
];

/// The tests of the mistakes, and one for each term that the order rule's pairs are made without.
pub fn tests() -> Vec<Whole> {
    let mut tests = of_mistakes("", worked::TESTS, &differential(), &PROPERTIES);
    tests.extend(order::WITHOUT.into_iter().map(|(pairs, says)| Whole {
        name: format!("mutation/{}", pairs.name),
        run: Box::new(move |run| noticed(run, &[pairs], &run.pair(Model::RIGHT), says)),
    }));
    tests
}

/// Two tests for each mistake, by worked tables and by generated inputs, and one for each of the properties. The kind
/// stands before the mistakes' names.
pub fn of_mistakes<M: Mistake>(
    kind: &str,
    tables: &[Cases],
    generated: &[Cases],
    properties: &[(Cases, M)],
) -> Vec<Whole> {
    let worked_out = M::all().into_iter().map(|slip| {
        let tables = tables.to_vec();
        Whole {
            name: format!("mutation/worked/{kind}{}", slip.name()),
            run: Box::new(move |run| worked_out(run, &tables, slip.model(), slip.says())),
        }
    });
    let compared = M::all().into_iter().map(|slip| {
        let generated = generated.to_vec();
        Whole {
            name: format!("mutation/generated/{kind}{}", slip.name()),
            run: Box::new(move |run| noticed(run, &generated, &run.pair(slip.model()), slip.says())),
        }
    });
    let alone = properties.iter().map(|&(test, slip)| Whole {
        name: format!("mutation/{}/{}", test.name, slip.name()),
        run: Box::new(move |run| alone(run, test, slip.model(), slip.says())),
    });
    worked_out.chain(compared).chain(alone).collect()
}

/// The worked tables, with the mistaken model in the engine's place.
fn worked_out(run: &Run, tables: &[Cases], mistaken: Model, says: &str) -> Finding {
    let pair = Pair { engine: &mistaken, model: Model::RIGHT };
    for test in tables {
        for case in run.quick_seeds(test) {
            match run_case(test, &pair, case) {
                Ok(()) => {}
                Err(what) if what.starts_with(PANIC) => return Err(what),
                Err(_) => return Ok(format!("{says}: noticed by {}, row {case}", test.name)),
            }
        }
    }
    Err(format!("no worked row notices: {says}"))
}

/// A test of the engine's answers alone, with the mistaken model in the engine's place.
fn alone(run: &Run, test: Cases, mistaken: Model, says: &str) -> Finding {
    noticed(run, &[test], &Pair { engine: &mistaken, model: Model::RIGHT }, says)
}

/// Into how many parts a test's cases are split.
const PARTS: usize = 100;

/// Runs the tests, a part of each in turn, until a case fails: the engine against a mistaken model, or a mistaken model
/// in the engine's place.
fn noticed(run: &Run, tests: &[Cases], pair: &Pair, says: &str) -> Finding {
    let seeds: Vec<Vec<u64>> = tests.iter().map(|test| run.quick_seeds(test).collect()).collect();
    for part in 0..PARTS {
        for (test, seeds) in tests.iter().zip(&seeds) {
            let size = seeds.len().div_ceil(PARTS);
            for (case, &seed) in seeds.iter().enumerate().skip(part * size).take(size) {
                match run_case(test, pair, seed) {
                    Ok(()) => {}
                    Err(what) if what.starts_with(PANIC) => return Err(what),
                    Err(_) => return Ok(format!("{says}: noticed by {}, case {}", test.name, case + 1)),
                }
            }
        }
    }
    Err(format!("not noticed: {says}"))
}
