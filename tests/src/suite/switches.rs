//! Switches, on the engine's answers alone: a word says no more than which switch conditions are on and which are off.

use super::rows::answers;
use crate::compare::{equal, hex, Outcome, Pair};
use crate::draft::{Draft, COMPANION};
use crate::generate::draft_case;
use crate::runner::{Cases, Count};
use crate::sample::under;
use crate::subject::Answer;
use mungaite::Query;

pub const NONE: Cases = Cases { name: "switches/none", count: Count::Random(2_000), run: none };
pub const REPLACED: Cases = Cases { name: "switches/replaced", count: Count::Random(3_000), run: replaced };
pub const REPLACED_ROWS: Cases =
    Cases { name: "switches/replaced-rows", count: Count::Random(3_000), run: replaced_rows };
pub const TURNED_ON: Cases = Cases { name: "switches/turned-on", count: Count::Random(4_000), run: turned_on };

pub const TESTS: &[Cases] = &[NONE, REPLACED, REPLACED_ROWS, TURNED_ON];

/// A policy without switch conditions answers alike under every word.
fn none(pair: &Pair, seed: u64) -> Outcome {
    let (draft, queries) = draft_case(seed);
    let image = without_switches(&draft, queries[0].switches).image();
    let words: Vec<u32> = queries.iter().map(|query| query.switches).chain([0, u32::MAX]).collect();
    for query in queries {
        let rows: Vec<Query> = words.iter().map(|&word| under(word, query)).collect();
        let answer = pair.engine.decide(&image, query);
        for &row in &rows {
            equal("another word", pair.engine.decide(&image, row), answer, || shown(row, &image))?;
        }
        let run = answers(pair.engine, &image, &rows)?;
        equal("rows of other words", run, vec![answer; rows.len()], || shown(query, &image))?;
    }
    Ok(())
}

/// Under a word a policy answers as the one whose switch conditions are replaced by 0 and 1 as the word says.
fn replaced(pair: &Pair, seed: u64) -> Outcome {
    let (draft, queries) = draft_case(seed);
    let image = draft.image();
    for query in queries {
        let other = without_switches(&draft, query.switches).image();
        let expected = pair.engine.decide(&other, under(0, query));
        equal("switches replaced", pair.engine.decide(&image, query), expected, || shown(query, &image))?;
    }
    Ok(())
}

/// The same for the rows of a run, each by its own word.
fn replaced_rows(pair: &Pair, seed: u64) -> Outcome {
    let (draft, queries) = draft_case(seed);
    let image = draft.image();
    let words: Vec<u32> = queries.iter().map(|query| query.switches).collect();
    for query in queries {
        let rows: Vec<Query> = words.iter().chain(&words).map(|&word| under(word, query)).collect();
        let alone = |row: &Query| pair.engine.decide(&without_switches(&draft, row.switches).image(), under(0, *row));
        let expected: Vec<Answer> = rows.iter().map(alone).collect();
        equal("rows, switches replaced", answers(pair.engine, &image, &rows)?, expected, || shown(query, &image))?;
    }
    Ok(())
}

/// Without a companion, more switches on never lower a decision.
fn turned_on(pair: &Pair, seed: u64) -> Outcome {
    let (mut draft, queries) = draft_case(seed);
    draft.constraints.retain(|constraint| constraint[10] != COMPANION);
    let image = draft.image();
    let kind = |query: Query| pair.engine.decide(&image, query).map(|decision| decision.kind());
    for &query in &queries {
        for more in &queries {
            let (Ok(first), Ok(second)) = (kind(query), kind(under(query.switches | more.switches, query))) else {
                continue;
            };
            if first > second {
                return Err(format!("{first:?}, then {second:?} with {more:?}\n    for {}", shown(query, &image)));
            }
        }
    }
    Ok(())
}

/// The policy with its switch conditions replaced by 1 where the word has the switch on, else by 0.
fn without_switches(draft: &Draft, word: u32) -> Draft {
    let mut draft = draft.clone();
    for rule in draft.rules.iter_mut().filter(|rule| rule[1] == 2 && rule[10] > 1) {
        rule[10] = u8::from(word & 1 << (rule[10] - 2) != 0);
    }
    draft
}

fn shown(query: Query, image: &[u8]) -> String {
    format!("{query:?} on {}", hex(image))
}
