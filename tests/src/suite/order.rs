//! The order rule, on the engine's answers: a policy that holds another never gives a lower decision.

use crate::compare::{hex, Outcome, Pair};
use crate::generate::{pair_case, pair_without, HeldPair, Term};
use crate::runner::{Cases, Count};
use crate::subject::Subject;
use mungaite::{Kind, Query, Refusal};

pub const PAIRS: Cases = Cases { name: "order/pairs", count: Count::Random(50_000), run: pairs };

pub const TESTS: &[Cases] = &[PAIRS];

/// The pairs without a term about the words, with what is left of the rule: some must fall.
pub const WITHOUT: [(Cases, &str); 2] = [
    (
        Cases { name: "order/pairs/switches-not-kept", count: Count::Random(50_000), run: without_switches_kept },
        "a switch of the first query may be off in the second",
    ),
    (
        Cases { name: "order/pairs/words-not-equal", count: Count::Random(50_000), run: without_equal_words },
        "with a companion constraint and the same rules, switches may be turned on",
    ),
];

/// The two decisions of a pair. Both queries are accepted.
pub fn decisions(engine: &dyn Subject, pair: &HeldPair) -> Result<(Kind, Kind), Refusal> {
    let kind = |image: &[u8], query: Query| engine.decide(image, query).map(|decision| decision.kind());
    Ok((kind(&pair.first, pair.first_query)?, kind(&pair.second, pair.second_query)?))
}

fn pairs(pair: &Pair, seed: u64) -> Outcome {
    never_falls(pair, pair_case(seed))
}

fn without_switches_kept(pair: &Pair, seed: u64) -> Outcome {
    never_falls(pair, pair_without(Term::SwitchesKept, seed))
}

fn without_equal_words(pair: &Pair, seed: u64) -> Outcome {
    never_falls(pair, pair_without(Term::EqualWords, seed))
}

fn never_falls(pair: &Pair, held: HeldPair) -> Outcome {
    let (first, second) = decisions(pair.engine, &held).map_err(|refusal| format!("refused: {refusal}"))?;
    if first <= second {
        return Ok(());
    }
    Err(format!(
        "{first:?}, then {second:?}\n    for {:?} on {}\n    and {:?} on {}",
        held.first_query,
        hex(&held.first),
        held.second_query,
        hex(&held.second)
    ))
}
