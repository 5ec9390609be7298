//! A long search for a covering rule, and for the nearest where none covers.

use crate::contest::Case;
use mungaite_tests::draft::{allow, Draft};
use mungaite_tests::sample::query;

/// All rules are on and of class 5 and action 1. Their groups hold the type `inner` and miss one member of `outer`:
/// they differ only in the last of 64 members. Only the last rule's destination may be `outer`.
struct Policy {
    image: Vec<u8>,
    inner: u16,
    outer: u16,
}

impl Policy {
    fn new(groups: u16, rules: u16, covered: bool) -> Policy {
        let mut policy = Draft::default();
        let inner = policy.add_group(0..63);
        let outer = policy.add_group(0..64);
        let others: Vec<u16> = (0..groups - 2).map(|group| policy.add_group((0..63).chain([64 + group]))).collect();
        for rule in 0..usize::from(rules - 1) {
            let pick = |n: usize| others[n % others.len()];
            policy.rules.push(allow(pick(rule), pick(rule * 7 + 3), 5, 1, 1));
        }
        let last = if covered { outer } else { others[0] };
        policy.rules.push(allow(others[0], last, 5, 1, 1));
        Policy { image: policy.image(), inner, outer }
    }
}

/// Every rule is of the query's class and action and holds its source. Only the last may hold its destination.
pub fn search(name: String, groups: u16, rules: u16, covered: bool) -> Case {
    let Policy { image, inner, outer } = Policy::new(groups, rules, covered);
    Case { name, image, queries: vec![query(inner, outer, 5, 1)] }
}

/// Denied queries that meet 1,024 rules, of their class and action or not, whose sources, destinations, both or none
/// hold the query's.
pub fn denied() -> [Case; 5] {
    let Policy { image, inner, outer } = Policy::new(256, 1024, false);
    let cases = [
        ("1024 rules: neither type fits", query(outer, outer, 5, 1)),
        ("1024 rules: sources fit", query(inner, outer, 5, 1)),
        ("1024 rules: destinations fit", query(outer, inner, 5, 1)),
        ("1024 of another action: sources fit", query(inner, outer, 5, 2)),
        ("1024 of another class: both fit", query(inner, inner, 6, 1)),
    ];
    cases.map(|(name, query)| Case { name: name.to_string(), image: image.clone(), queries: vec![query] })
}

#[cfg(test)]
mod tests {
    use super::*;
    use mungaite::{decide, Decision, Nearest};

    #[test]
    fn the_first_rule_is_the_nearest() {
        let nearest = [1, 2, 1, 2, 3].map(|steps| Some(Nearest { steps, rule: 0 }));
        let answers = denied().map(|case| decide(&case.image, case.queries[0]));
        assert_eq!(answers, nearest.map(|nearest| Ok(Decision::NotPermitted { nearest })));
    }
}
