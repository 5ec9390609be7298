//! Policies whose rules wait for switches, and queries under words.

use super::constraints::held;
use super::search::search;
use super::sizes::{limit, middle};
use crate::contest::Case;
use mungaite::{Query, MOST_ROWS};

/// All switches, and every other one.
const ALL: u32 = u32::MAX;
const EVERY_OTHER: u32 = 0x5555_5555;

/// All switches but one that no constraint needs to hold, and all but another such.
const ALL_BUT_ONE: u32 = ALL - 1;
const ALL_BUT_ANOTHER: u32 = ALL - 2;

/// The longest searches and the mixes, with every rule on by its switch; and a search in which half of the rules are
/// off by theirs.
pub fn decided() -> Vec<Case> {
    let rules = |covered: bool| waiting(search(String::new(), 256, 1024, covered));
    let mut cases = vec![
        rules(false).named("uncovered, 1024 rules").under(&[ALL]),
        rules(false).named("uncovered, half of them off").under(&[EVERY_OTHER]),
        rules(true).named("covered by the last of them").under(&[ALL]),
    ];
    cases.extend(held().into_iter().skip(1).map(|case| waiting(case).under(&[ALL])));
    cases.extend([middle(), limit()].map(|case| waiting(case).under(&[ALL])));
    cases
}

/// Rows that meet 256 constraints each, under one word, under two one after the other, and under two and three in turn;
/// and under two in turn where no rule waits.
pub fn rows() -> Vec<Case> {
    let halves = [[ALL; MOST_ROWS / 2], [ALL_BUT_ONE; MOST_ROWS / 2]].concat();
    let [_, separations, _, rosters, companions] = held();
    let words: [(&str, &[u32]); 4] = [
        ("one word", &[ALL]),
        ("two words, 32 rows each", &halves),
        ("two words in turn", &[ALL, ALL_BUT_ONE]),
        ("three words in turn", &[ALL, ALL_BUT_ONE, ALL_BUT_ANOTHER]),
    ];
    let mut cases = Vec::new();
    for (name, case) in [("separations", separations), ("rosters", rosters), ("companions", companions)] {
        let in_turn = case.clone().under(&[ALL, ALL_BUT_ONE]);
        cases.push(in_turn.named(&format!("{name}, no rule waits, in turn")));
        let case = waiting(case);
        cases.extend(words.map(|(what, words)| case.clone().under(words).named(&format!("{name}, {what}"))));
    }
    cases
}

/// The mixes, with every rule on by its switch, under two words in turn.
pub fn mixes() -> [Case; 2] {
    [("200 rules that wait, words in turn", middle()), ("1024 rules that wait, words in turn", limit())]
        .map(|(name, case)| waiting(case).under(&[ALL, EVERY_OTHER]).named(name))
}

/// The policy with its rules that are on waiting for a switch each, 32 of them in turn.
fn waiting(mut case: Case) -> Case {
    let image = &mut case.image;
    let count = |at: usize| usize::from(u16::from_be_bytes([image[at], image[at + 1]]));
    let (groups, rules) = (count(3), count(5));
    let mut place = 9;
    for record in 0..groups + rules {
        let length = usize::from(image[place]);
        let condition = place + length - 1;
        if image[place + 1] == 2 && image[condition] == 1 {
            image[condition] = mungaite_tests::draft::switch(((record - groups) % 32) as u8);
        }
        place += length;
    }
    case
}

impl Case {
    /// Each of the queries under some words, one after the other.
    fn under(mut self, words: &[u32]) -> Case {
        let under = |query: Query| words.iter().map(move |&switches| Query { switches, ..query });
        self.queries = self.queries.into_iter().flat_map(under).collect();
        self
    }

    fn named(mut self, name: &str) -> Case {
        self.name = name.to_string();
        self
    }
}

#[cfg(test)]
mod tests {
    use super::*;
    use mungaite::{decide, Decision, Nearest};

    fn answers(case: &Case) -> Vec<Decision> {
        case.queries.iter().map(|&query| decide(&case.image, query).unwrap()).collect()
    }

    /// With all switches on the answers are those of rules that are on.
    #[test]
    fn rules_that_wait_answer_as_rules_that_are_on() {
        for case in [middle(), limit()].into_iter().chain(held()) {
            assert_eq!(answers(&waiting(case.clone()).under(&[ALL])), answers(&case), "{}", case.name);
        }
    }

    #[test]
    fn searches_end_where_they_should() {
        let [uncovered, half, covered, ..] = &decided()[..] else { panic!("three searches come first") };
        let nearest = |rule: u16| vec![Decision::NotPermitted { nearest: Some(Nearest { steps: 2, rule }) }];
        assert_eq!([answers(uncovered), answers(half)], [nearest(0), nearest(0)]);
        assert_eq!(answers(covered), [Decision::Permitted { rule: 1023 }]);
    }

    /// Permitted by the transition under each word, so no constraint is broken.
    #[test]
    fn constraints_hold_under_each_word() {
        for case in rows() {
            assert!(answers(&case).iter().all(|answer| *answer == Decision::Permitted { rule: 1023 }), "{}", case.name);
        }
    }

    /// The second word changes some answers, and not all.
    #[test]
    fn mixes_change_with_the_word() {
        for case in mixes() {
            let answers = answers(&case);
            let changed = answers.chunks(2).filter(|pair| pair[0] != pair[1]).count();
            assert!(changed > 0 && changed < answers.len() / 2, "{}: {changed}", case.name);
        }
    }
}
