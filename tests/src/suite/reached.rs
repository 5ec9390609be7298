//! The random inputs are not hollow: they reach every refusal, every decision and both sides of every predicate.

use super::order::{decisions, PAIRS};
use super::random::{ADD, CHECK, DECIDE, RECORD, RUN};
use super::tally::Tally;
use super::{reached_separation, reached_steps, reached_switches, reached_text, reached_twins};
use crate::compare::unanswered;
use crate::generate::{add_case, check_case, decide_case, pair_case, record_case, run_case};
use crate::model::Model;
use crate::runner::{Finding, Run, Whole};
use crate::subject::{Answer, Subject};

pub fn tests() -> Vec<Whole> {
    let test = |name: &str, run: fn(&Run) -> Finding| Whole { name: name.to_string(), run: Box::new(run) };
    vec![
        test("reached/check", check),
        test("reached/record", record),
        test("reached/decide", decide),
        test("reached/run", run),
        test("reached/add", add),
        test("reached/steps", reached_steps::nearest),
        test("reached/run-steps", reached_steps::rows),
        test("reached/predicates", predicates),
        test("reached/separations", reached_separation::sources),
        test("reached/order", order),
        test("reached/switches", reached_switches::covering),
        test("reached/switch-predicates", reached_switches::predicates),
        test("reached/switch-rows", reached_switches::rows),
        test("reached/order-words", reached_switches::order),
        test("reached/build", reached_text::places),
        test("reached/build-kinds", reached_text::kinds),
        test("reached/build-ends", reached_text::ends),
        test("reached/twins", reached_twins::named),
        test("reached/twins-added", reached_twins::added),
        test("reached/convert", reached_twins::convert),
        test("reached/convert-sets", reached_twins::sets),
        test("reached/convert-buffers", reached_twins::buffers),
        test("reached/convert-answers", reached_twins::answers),
    ]
}

/// Refusals by number; 0 stands for an accepted call.
fn outcome<T>(answer: Result<T, mungaite::Refusal>) -> u16 {
    answer.map_or_else(|refusal| refusal.number, |_| 0)
}

fn check(run: &Run) -> Finding {
    let mut tally = Tally::new();
    for seed in run.seeds(&CHECK) {
        tally.see(outcome(run.engine.check(&check_case(seed))));
    }
    tally.judge((0..=7).chain([19]).collect())
}

fn record(run: &Run) -> Finding {
    let mut tally = Tally::new();
    for seed in run.seeds(&RECORD) {
        let (image, section, n) = record_case(seed);
        tally.see(outcome(run.engine.record(&image, section, n)));
    }
    tally.judge((0..=7).chain([14, 19]).collect())
}

fn decide(run: &Run) -> Finding {
    let mut tally = Tally::new();
    for seed in run.seeds(&DECIDE) {
        let (image, queries) = decide_case(seed);
        for query in queries {
            tally.see(shown(run.engine.decide(&image, query)));
        }
    }
    let decisions = ["NotPermitted", "Permitted", "UnKnown"].map(String::from);
    tally.judge((1..=9).chain([19]).map(|number| number.to_string()).chain(decisions).collect())
}

/// The decision's name, or the refusal's number.
fn shown(answer: Answer) -> String {
    answer.map_or_else(|refusal| refusal.number.to_string(), |decision| format!("{:?}", decision.kind()))
}

/// What the first row that is not Permitted gets, by whether another follows; fit runs by their length; refusals.
fn run(run: &Run) -> Finding {
    let mut tally = Tally::new();
    for seed in run.seeds(&RUN) {
        let (image, queries, slots) = run_case(seed);
        let mut answers = unanswered(slots);
        tally.see(match run.engine.run(&image, &queries, &mut answers) {
            Ok(mungaite::Run::Fit) if matches!(slots, 2..64) => "fit".to_string(),
            Ok(mungaite::Run::Fit) => format!("fit, {slots}"),
            Ok(mungaite::Run::Unfit { row }) if row + 1 == slots => format!("{}, last", shown(answers[row])),
            Ok(mungaite::Run::Unfit { row }) => shown(answers[row]),
            Err(refusal) => format!("refused, {}", refusal.number),
        });
    }
    let fit = ["fit", "fit, 1", "fit, 64"].map(String::from);
    let unfit =
        ["NotPermitted", "UnKnown", "8", "9"].into_iter().flat_map(|kind| [kind.to_string(), format!("{kind}, last")]);
    let refused = (1..=7).chain([16, 17, 19]).map(|number| format!("refused, {number}"));
    tally.judge(fit.into_iter().chain(unfit).chain(refused).collect())
}

fn add(run: &Run) -> Finding {
    let mut tally = Tally::new();
    for seed in run.seeds(&ADD) {
        let (mut buffer, record) = add_case(seed);
        tally.see(outcome(run.engine.add(&mut buffer, &record)));
    }
    tally.judge((0..=7).chain(10..=13).chain([19, 20]).collect())
}

/// Of applying constraints of covered queries: the predicate, whether the query is within both arguments, and whether
/// the predicate is true. Outside of its arguments every predicate is true, and a ban is never true within.
fn predicates(run: &Run) -> Finding {
    let mut tally = Tally::new();
    for seed in run.seeds(&DECIDE) {
        let (image, queries) = decide_case(seed);
        for verdict in queries.iter().flat_map(|query| Model::RIGHT.verdicts(&image, *query)) {
            tally.see((verdict.predicate, verdict.concerns, verdict.holds));
        }
    }
    let outside = (0..=3).map(|predicate| (predicate, false, true));
    let failing = (0..=3).map(|predicate| (predicate, true, false));
    let holding = (1..=3).map(|predicate| (predicate, true, true));
    tally.judge(outside.chain(failing).chain(holding).collect())
}

/// The order rule's pairs have every step that it allows.
fn order(run: &Run) -> Finding {
    use mungaite::Kind::{NotPermitted, Permitted, UnKnown};
    let mut tally = Tally::new();
    for seed in run.seeds(&PAIRS) {
        tally.see(decisions(&run.engine, &pair_case(seed)).map_err(|refusal| format!("refused: {refusal}"))?);
    }
    tally.judge(vec![
        (NotPermitted, NotPermitted),
        (NotPermitted, Permitted),
        (NotPermitted, UnKnown),
        (Permitted, Permitted),
        (Permitted, UnKnown),
        (UnKnown, UnKnown),
    ])
}
