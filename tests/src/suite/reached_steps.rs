//! The random inputs are not hollow where a query is denied: they reach every number of steps, by every kind of rule,
//! at every place.

use super::random::{DECIDE, RUN};
use super::tally::Tally;
use crate::compare::unanswered;
use crate::generate::{decide_case, run_case};
use crate::runner::{Finding, Run};
use crate::subject::{Answer, Subject};
use mungaite::{Decision, Nearest, Section};

/// The kinds of rules, and where the nearest stands among the rules: the first, between others, the last of several.
const KINDS: [&str; 2] = ["allow", "transition"];
const PLACES: [&str; 3] = ["first", "between", "last"];

/// Of denied queries: the steps, the nearest rule's kind and its place. With no step all rules are off, so it is the
/// first and no transition; and no transition passes three steps.
pub fn nearest(run: &Run) -> Finding {
    let mut tally = Tally::new();
    for seed in run.seeds(&DECIDE) {
        let (image, queries) = decide_case(seed);
        for query in queries {
            if let Ok(Decision::NotPermitted { nearest }) = run.engine.decide(&image, query) {
                tally.see(nearest.map(|nearest| described(&image, nearest, &run.engine)));
            }
        }
    }
    let of = |steps: u8, kinds: &'static [&str]| {
        kinds.iter().flat_map(move |kind| PLACES.map(|place| Some((steps, *kind, place))))
    };
    let rules = of(1, &KINDS).chain(of(2, &KINDS)).chain(of(3, &KINDS[..1])).chain(of(4, &KINDS[..1]));
    tally.judge([None, Some((0, "allow", "first"))].into_iter().chain(rules).collect())
}

fn described(image: &[u8], nearest: Nearest, engine: &dyn Subject) -> (u8, &'static str, &'static str) {
    let record = |n: u16| engine.record(image, Section::Rules, n);
    let kind = record(nearest.rule).map_or(0, |place| usize::from(image[place.start + 1] == 3));
    let place = match nearest.rule {
        0 => 0,
        rule if record(rule + 1).is_ok() => 1,
        _ => 2,
    };
    (nearest.steps, KINDS[kind], PLACES[place])
}

/// Of denied rows: their steps beside those of the denied row just before, or what else that row got.
pub fn rows(run: &Run) -> Finding {
    let mut tally = Tally::new();
    for seed in run.seeds(&RUN) {
        let (image, queries, slots) = run_case(seed);
        let mut answers = unanswered(slots);
        if run.engine.run(&image, &queries, &mut answers).is_ok() {
            answers.windows(2).filter_map(beside).for_each(|outcome| tally.see(outcome));
        }
    }
    tally.judge(vec!["more", "as many", "fewer", "no rules", "behind Permitted", "behind UnKnown", "behind a refusal"])
}

fn beside(rows: &[Answer]) -> Option<&'static str> {
    let Ok(Decision::NotPermitted { nearest }) = rows[1] else {
        return None;
    };
    let Some(Nearest { steps, .. }) = nearest else {
        return Some("no rules");
    };
    Some(match rows[0] {
        Ok(Decision::Permitted { .. }) => "behind Permitted",
        Ok(Decision::UnKnown { .. }) => "behind UnKnown",
        Ok(Decision::NotPermitted { nearest: before }) => match before.map(|before| steps.cmp(&before.steps)) {
            Some(std::cmp::Ordering::Greater) => "more",
            Some(std::cmp::Ordering::Less) => "fewer",
            _ => "as many",
        },
        Err(_) => "behind a refusal",
    })
}
