//! Three sizes of policy: the sample sheet, a middle one and the limits.

use super::mix::Size;
use crate::contest::Case;
use mungaite::{Kind, Query};
use mungaite_tests::draft::allow;
use mungaite_tests::sample::{query, G0, QUERIES, SAMPLE};

const MIDDLE: Size = Size { groups: 32, members: 8, rules: 200, constraints: 20 };
const MIDDLE_NAME: &str = "32 groups, 200 rules, 20 constraints";
const LIMIT: Size = Size { groups: 256, members: 64, rules: 1024, constraints: 256 };
const LIMIT_NAME: &str = "256 groups, 1024 rules, 256 constraints";

/// Of the sample, denied after one step to four.
const STOPPED: [Query; 8] = [
    query(13, 21, 5, 1),
    query(G0, 30, 5, 2),
    query(10, 30, 5, 1),
    query(12, 21, 5, 1),
    query(10, G0, 6, 1),
    query(20, 30, 6, 2),
    query(10, 21, 5, 3),
    query(20, 30, 5, 1),
];

pub fn sample() -> Case {
    let queries = [&QUERIES[..5], &[query(G0, 30, 5, 2)]].concat();
    Case { name: "sample".to_string(), image: SAMPLE.to_vec(), queries }
}

pub fn middle() -> Case {
    MIDDLE.case(MIDDLE_NAME)
}

pub fn limit() -> Case {
    LIMIT.case(LIMIT_NAME)
}

/// Denied queries only, with the nearest rule after one step to four.
pub fn denied() -> [Case; 3] {
    let cases =
        [Case { queries: STOPPED.to_vec(), ..sample() }, MIDDLE.stopped(MIDDLE_NAME), LIMIT.stopped(LIMIT_NAME)];
    cases.map(|case| case.only(Kind::NotPermitted))
}

/// The Permitted queries of the mixes.
pub fn permitted() -> [Case; 3] {
    [sample(), middle(), limit()].map(|case| case.only(Kind::Permitted))
}

/// The UnKnown queries of the mixes; the sample has one with a rule more.
pub fn unknown() -> [Case; 3] {
    [with_a_rule_more(), middle(), limit()].map(|case| case.only(Kind::UnKnown))
}

fn with_a_rule_more() -> Case {
    let rule = allow(10, 30, 5, 3, 1);
    let mut image = [&SAMPLE[..], &rule].concat();
    hand_written::add(&mut image, &rule).expect("the sample takes a rule");
    Case { name: "sample with a rule more".to_string(), image, ..sample() }
}

#[cfg(test)]
mod tests {
    use super::*;
    use mungaite::Decision;

    /// How many queries are not permitted, permitted and unknown.
    fn answers(case: &Case) -> [usize; 3] {
        let mut counts = [0; 3];
        for &query in &case.queries {
            counts[mungaite::decide(&case.image, query).unwrap().kind() as usize] += 1;
        }
        counts
    }

    /// How many queries are denied after each number of steps.
    fn steps(case: &Case) -> [usize; 5] {
        let mut counts = [0; 5];
        for &query in &case.queries {
            match mungaite::decide(&case.image, query) {
                Ok(Decision::NotPermitted { nearest: Some(nearest) }) => counts[usize::from(nearest.steps)] += 1,
                answer => panic!("{query:?}: {answer:?}"),
            }
        }
        counts
    }

    #[test]
    fn mixes_hold_every_decision() {
        assert_eq!(answers(&sample()), [2, 4, 0]);
        assert_eq!(answers(&middle()), [8, 14, 3]);
        assert_eq!(answers(&limit()), [6, 14, 5]);
    }

    #[test]
    fn denied_queries_stop_at_every_step() {
        assert_eq!(denied().each_ref().map(steps), [[0, 2, 2, 2, 2], [0, 18, 6, 32, 12], [0, 18, 6, 22, 18]]);
    }

    #[test]
    fn chosen_queries_have_one_decision() {
        assert_eq!(permitted().each_ref().map(answers), [[0, 4, 0], [0, 14, 0], [0, 14, 0]]);
        assert_eq!(unknown().each_ref().map(answers), [[0, 0, 1], [0, 0, 3], [0, 0, 5]]);
    }
}
