//! The random inputs are not hollow where switches are asked for: each of them decides, on and off, in the cover and in
//! every predicate, and what a run's row gets changes with its word and comes back with it.

use super::order::PAIRS;
use super::random::{DECIDE, RUN};
use super::tally::Tally;
use crate::draft::COMPANION;
use crate::generate::{decide_case, pair_case, run_case, HeldPair};
use crate::model::{Model, Reader, Slip};
use crate::runner::{Finding, Run};
use crate::sample::under;
use crate::subject::{Answer, Subject};
use mungaite::{Decision, Kind, Query, Section};

/// The predicates that look at the rules, by their numbers.
const PREDICATES: [(u8, Reader); 3] = [(1, Reader::Separation), (2, Reader::Roster), (3, Reader::Companion)];

/// Of rules that cover a query, or would if their switch were on: the switch, and whether it is on.
pub fn covering(run: &Run) -> Finding {
    let mut tally = Tally::new();
    for seed in run.seeds(&DECIDE) {
        let (image, queries) = decide_case(seed);
        for query in queries {
            let covering = covering_switch(&image, Model::RIGHT.decide(&image, query));
            let with_all = covering_switch(&image, Model::with(Slip::SwitchOn(Reader::Cover)).decide(&image, query));
            covering.into_iter().for_each(|k| tally.see((k, true)));
            with_all.into_iter().filter(|k| !query.has_switch(*k)).for_each(|k| tally.see((k, false)));
        }
    }
    tally.judge((0..32).flat_map(|k| [(k, true), (k, false)]).collect())
}

/// The switch that the rule named by an answer waits for.
fn covering_switch(image: &[u8], answer: Answer) -> Option<u8> {
    let (Decision::Permitted { rule } | Decision::UnKnown { rule, .. }) = answer.ok()? else { return None };
    let place = Model::RIGHT.record(image, Section::Rules, rule).ok()?;
    match image[place] {
        [_, 2, .., condition @ 2..=33] => Some(condition - 2),
        _ => None,
    }
}

/// Of constraints within whose arguments a covered query is: the predicate, and whether it would say something else if
/// no switch rule were on, or if all were. The mistaken models tell.
pub fn predicates(run: &Run) -> Finding {
    let mut tally = Tally::new();
    for seed in run.seeds(&DECIDE) {
        let (image, queries) = decide_case(seed);
        for query in queries {
            let verdicts = Model::RIGHT.verdicts(&image, query);
            for (number, reader) in PREDICATES {
                let concerns = |n: &usize| verdicts[*n].predicate == number && verdicts[*n].concerns;
                let concerning: Vec<usize> = (0..verdicts.len()).filter(concerns).collect();
                if concerning.is_empty() {
                    continue;
                }
                let [off, on] = [Slip::SwitchOff(reader), Slip::SwitchOn(reader)]
                    .map(|slip| Model::with(slip).verdicts(&image, query));
                for n in concerning {
                    let holds = verdicts[n].holds;
                    tally.see((number, off[n].holds != holds, on[n].holds != holds));
                }
            }
        }
    }
    let which = [(false, false), (true, false), (false, true)];
    tally.judge(PREDICATES.into_iter().flat_map(|(number, _)| which.map(|(off, on)| (number, off, on))).collect())
}

/// Of rows that ask the same under different words, one just behind the other: the predicates whose verdicts change,
/// and to what; those that are again what they were before, when the word comes back; and those that are not, where it is
/// a third word.
pub fn rows(run: &Run) -> Finding {
    let mut tally = Tally::new();
    for seed in run.seeds(&RUN) {
        let (image, queries, slots) = run_case(seed);
        if slots == queries.len() && slots <= 64 {
            queries.windows(2).for_each(|rows| changes(&image, rows).for_each(|change| tally.see((change, "changes"))));
            let back = queries.windows(3).filter(|rows| rows[0] == rows[2]);
            back.for_each(|rows| changes(&image, &rows[1..]).for_each(|change| tally.see((change, "comes back"))));
            let third = queries.windows(3).filter(|rows| is_third(rows));
            third.for_each(|rows| {
                changes(&image, &[rows[0], rows[2]]).for_each(|change| tally.see((change, "third word")));
            });
        }
    }
    let changes = PREDICATES.into_iter().flat_map(|(number, _)| [(number, false), (number, true)]);
    tally.judge(changes.flat_map(|change| ["changes", "comes back", "third word"].map(|when| (change, when))).collect())
}

/// Whether the middle one of three rows asks what the first one does, and has a word of its own.
fn is_third(rows: &[Query]) -> bool {
    rows[1] == under(rows[1].switches, rows[0]) && rows[1] != rows[0] && rows[1] != rows[2]
}

/// The predicates that say something else of the second row than of the first, and whether they hold there.
fn changes(image: &[u8], rows: &[Query]) -> impl Iterator<Item = (u8, bool)> {
    let same = under(0, rows[0]) == under(0, rows[1]) && rows[0] != rows[1];
    let verdicts = |row: Query| if same { Model::RIGHT.verdicts(image, row) } else { Vec::new() };
    let both = verdicts(rows[0]).into_iter().zip(verdicts(rows[1]));
    both.filter(|(before, now)| before.holds != now.holds).map(|(_, now)| (now.predicate, now.holds))
}

/// Of the order rule's pairs: whether the first policy has a companion, whether the words are equal, and what the first
/// policy says to its query under either word.
pub fn order(run: &Run) -> Finding {
    use Kind::{NotPermitted, Permitted, UnKnown};
    let mut tally = Tally::new();
    for seed in run.seeds(&PAIRS) {
        let HeldPair { first, first_query, second_query, .. } = pair_case(seed);
        let constraints = (0..).map_while(|n| Model::RIGHT.record(&first, Section::Constraints, n).ok());
        let companion = constraints.into_iter().any(|place| first[place][10] == COMPANION);
        let kind = |word: u32| run.engine.decide(&first, under(word, first_query)).map(|decision| decision.kind());
        let words = (first_query.switches, second_query.switches);
        let (Ok(before), Ok(now)) = (kind(words.0), kind(words.1)) else {
            return Err("a query of a pair is refused".to_string());
        };
        tally.see((companion, words.0 == words.1, before, now));
    }
    let same = [NotPermitted, Permitted, UnKnown].map(|kind| (kind, kind));
    let raised = [(NotPermitted, Permitted), (NotPermitted, UnKnown), (Permitted, UnKnown)];
    let with = |companion, equal| move |(before, now)| (companion, equal, before, now);
    let equal = same.into_iter().flat_map(|kinds| [with(true, true)(kinds), with(false, true)(kinds)]);
    tally.judge(equal.chain(same.into_iter().chain(raised).map(with(false, false))).collect())
}
