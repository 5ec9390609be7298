//! Queries that are made from the types, class and action of some rules.

use mungaite::Query;
use mungaite_tests::sample::query;

/// A source and a destination.
pub type Pair = (u16, u16);

/// A class and an action.
pub type Kind = (u16, u16);

/// What a query asks, or a rule says.
pub type Asked = (Pair, Kind);

/// A fixed mix: covered early, covered late and uncovered, of basic types and of groups, some of which constraints
/// apply to.
pub fn mixed(rules: &[Asked], types: &Types) -> Vec<Query> {
    let mut queries = Vec::new();
    for &(pair, kind) in rules {
        queries.push((pair, kind));
        queries.push((types.members(pair), kind));
    }
    for &(pair, kind) in &rules[..3] {
        queries.push(((pair.1, pair.0), kind));
        queries.push((pair, (kind.0 + 100, kind.1)));
    }
    queries.push(((types.sources[2].1, types.destinations[9].0), (200, 200)));
    queries.into_iter().map(as_query).collect()
}

/// The rule that a query is made from stops it at the source, the destination, the class or the action. Another rule
/// may take it further.
pub fn stopped(rules: &[Asked], types: &Types) -> Vec<Query> {
    let mut queries = Vec::new();
    for (&(pair, kind), &(other, _)) in rules.iter().zip(rules.iter().cycle().skip(1)) {
        for (pair, other) in [(pair, other), (types.members(pair), types.members(other))] {
            queries.push(((pair.1, pair.0), kind));
            queries.push(((pair.0, other.1), kind));
            queries.push((pair, (kind.0 + 100, kind.1)));
            queries.push((pair, (kind.0, kind.1 + 100)));
        }
    }
    queries.into_iter().map(as_query).collect()
}

fn as_query((pair, kind): Asked) -> Query {
    query(pair.0, pair.1, kind.0, kind.1)
}

/// The groups that were added, each with one of its members.
#[derive(Default)]
pub struct Types {
    pub sources: Vec<(u16, u16)>,
    pub destinations: Vec<(u16, u16)>,
}

impl Types {
    /// A list that holds every source.
    pub fn list(&self) -> Vec<u16> {
        self.sources.iter().take(16).map(|group| group.0).collect()
    }

    /// A basic type of each of two types.
    fn members(&self, pair: Pair) -> Pair {
        (self.member(pair.0), self.member(pair.1))
    }

    fn member(&self, field: u16) -> u16 {
        let mut groups = self.sources.iter().chain(&self.destinations);
        groups.find(|group| group.0 == field).map_or(field, |group| group.1)
    }
}
