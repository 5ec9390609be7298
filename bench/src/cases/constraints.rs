//! Policies in which 256 constraints apply, each of which holds after a long search. All is of class 5 and action 1.

use crate::contest::Case;
use mungaite_tests::draft::{allow, constraint, transition, Draft, BAN, COMPANION, ROSTER, SEPARATION};
use mungaite_tests::sample::query;

pub fn held() -> [Case; 5] {
    [
        // The query's source is within the first argument of each ban, and its destination misses the second by one
        // member.
        case("256 bans, near misses", BAN, Sources::Groups, |parts, n| parts.near[n % parts.near.len()]),
        // Half of the rules reach the first argument, half the second.
        case("256 separations that hold, of groups", SEPARATION, Sources::Groups, Parts::second),
        case("256 separations that hold, basic types", SEPARATION, Sources::BasicTypes, Parts::second),
        // Half of the rules reach the second argument, all from the list.
        case("256 rosters that hold, 16 groups each", ROSTER, Sources::Groups, Parts::second),
        // The last live rule is the one that is needed.
        case("256 companions that hold", COMPANION, Sources::Groups, Parts::second),
    ]
}

/// What the rules' sources are: 64 of them to the first argument, and 64 others to the second.
enum Sources {
    Groups,
    BasicTypes,
}

/// A policy with 256 constraints of a predicate, given by their second arguments.
fn case(name: &str, predicate: u8, sources: Sources, second: impl Fn(&Parts, usize) -> u16) -> Case {
    let mut policy = Draft::default();
    let parts = Parts::new(&mut policy, sources);
    let list = if predicate == ROSTER { parts.list.as_slice() } else { &[] };
    for n in 0..256 {
        policy.constraints.push(constraint(5, 1, parts.firsts[n % 32], second(&parts, n), predicate, list));
    }
    Case { name: name.to_string(), image: policy.image(), queries: vec![query(parts.query, parts.query, 5, 1)] }
}

/// The groups that the constraints speak of.
struct Parts {
    query: u16,
    firsts: Vec<u16>,
    seconds: Vec<u16>,
    near: Vec<u16>,
    list: Vec<u16>,
}

impl Parts {
    /// Adds the groups and 1,024 rules: 1,023 live ones, the last of them the companion, and a transition that covers
    /// the query. The sources to the first argument are even and those to the second odd, so they share nothing and lie
    /// among each other; each reaches its argument by the last of 64 members.
    fn new(policy: &mut Draft, sources: Sources) -> Parts {
        let query = policy.add_group(800..862);
        let even = family(policy, (0..126).step_by(2), (126..254).step_by(2), &[]);
        let odd = family(policy, (1..127).step_by(2), (127..255).step_by(2), &[]);
        let to_first = family(policy, 700..762, 762..778, &[900]);
        let to_second = family(policy, 700..762, 762..778, &[901]);
        for rule in 0..511 {
            let n = rule % 64;
            let (one, other) = match sources {
                Sources::Groups => (even[n], odd[n]),
                Sources::BasicTypes => (2 * n as u16, 2 * n as u16 + 1),
            };
            policy.rules.push(allow(one, to_first[rule / 7 % 16], 5, 1, 1));
            policy.rules.push(allow(other, to_second[rule / 5 % 16], 5, 1, 1));
        }
        policy.rules.push(allow(to_second[0], to_first[0], 5, 1, 1));
        policy.rules.push(transition(query, query, 5));
        let rest_of_list = policy.add_group((127..255).step_by(2));
        Parts {
            query,
            firsts: family(policy, 800..862, 862..894, &[900]),
            seconds: family(policy, 800..862, 862..894, &[901]),
            near: family(policy, 800..861, 862..890, &[900, 901]),
            list: [&odd[..15], &[rest_of_list]].concat(),
        }
    }

    fn second(&self, n: usize) -> u16 {
        self.seconds[(n / 8 + n) % 32]
    }
}

/// Groups that share all members but one, each with one of its own behind the shared ones.
fn family(
    policy: &mut Draft,
    shared: impl Iterator<Item = u16> + Clone,
    own: impl Iterator<Item = u16>,
    last: &[u16],
) -> Vec<u16> {
    own.map(|own| policy.add_group(shared.clone().chain([own]).chain(last.iter().copied()))).collect()
}

#[cfg(test)]
mod tests {
    use super::*;
    use mungaite::{decide, Decision};

    /// Permitted by the transition, so no constraint is broken.
    #[test]
    fn constraints_hold() {
        for case in held() {
            assert_eq!(decide(&case.image, case.queries[0]), Ok(Decision::Permitted { rule: 1023 }), "{}", case.name);
        }
    }
}
