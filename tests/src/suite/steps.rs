//! How near a denied query came, on the engine's answers alone; and the three decisions, which the steps do not change.

use crate::compare::{equal, hex, Outcome, Pair};
use crate::draft::Draft;
use crate::generate::{decide_case, draft_case};
use crate::model::{Model, Slip};
use crate::runner::{Cases, Count};
use crate::subject::{Answer, Subject};
use mungaite::{Decision, Nearest, Query};

pub const ONE_BY_ONE: Cases = Cases { name: "steps/one-by-one", count: Count::Random(3_000), run: one_by_one };
pub const FORGOTTEN: Cases = Cases { name: "steps/forgotten", count: Count::Random(3_000), run: forgotten };

pub const TESTS: &[Cases] = &[ONE_BY_ONE, FORGOTTEN];

/// A policy's answer is put together from those of its rules, each in a policy of its own: the lowest that covers, else
/// the most steps and the lowest rule that has them.
fn one_by_one(pair: &Pair, seed: u64) -> Outcome {
    let (mut draft, queries) = draft_case(seed);
    draft.constraints.clear();
    let image = draft.image();
    for query in queries {
        let together = put_together(pair.engine, &draft, query)?;
        equal("rules together", pair.engine.decide(&image, query), together, || shown(query, &image))?;
    }
    Ok(())
}

fn put_together(engine: &dyn Subject, draft: &Draft, query: Query) -> Result<Answer, String> {
    let with = |rules: Vec<Vec<u8>>| Draft { groups: draft.groups.clone(), rules, constraints: Vec::new() }.image();
    let without_rules = engine.decide(&with(Vec::new()), query);
    if without_rules.is_err() {
        return Ok(without_rules);
    }
    equal("no rules", without_rules, Ok(Decision::NotPermitted { nearest: None }), || format!("{query:?}"))?;
    let mut best: Option<Nearest> = None;
    for (rule, record) in (0..).zip(&draft.rules) {
        let alone = with(vec![record.clone()]);
        match engine.decide(&alone, query) {
            Ok(Decision::Permitted { rule: 0 }) => return Ok(Ok(Decision::Permitted { rule })),
            Ok(Decision::NotPermitted { nearest: Some(Nearest { steps: steps @ 0..=4, rule: 0 }) }) => {
                if best.is_none_or(|best| best.steps < steps) {
                    best = Some(Nearest { steps, rule });
                }
            }
            other => return Err(format!("{other:?} of one rule\n    for {}", shown(query, &alone))),
        }
    }
    Ok(Ok(Decision::NotPermitted { nearest: best }))
}

/// With the steps forgotten, the answers are those of the model without request [2].
fn forgotten(pair: &Pair, seed: u64) -> Outcome {
    let (image, queries) = decide_case(seed);
    for query in queries {
        let answer = pair.engine.decide(&image, query).map(|decision| match decision {
            Decision::NotPermitted { .. } => Decision::NotPermitted { nearest: None },
            other => other,
        });
        let before = Model::with(Slip::StepsForgotten).decide(&image, query);
        equal("without steps", answer, before, || shown(query, &image))?;
    }
    Ok(())
}

fn shown(query: Query, image: &[u8]) -> String {
    format!("{query:?} on {}", hex(image))
}
