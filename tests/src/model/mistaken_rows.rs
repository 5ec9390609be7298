//! The answers of a run's rows, each the decision's own, and what mistaken models make of them.

use super::policy::{Constraint, Request, Set};
use super::slip::Predicate;
use super::{Model, Slip};
use crate::subject::{Answer, Subject};
use mungaite::{Decision, Nearest, Query};
use std::collections::BTreeMap;

impl Model {
    /// What each row gets: what the decision gives.
    pub fn each_row(self, image: &[u8], queries: &[Query]) -> Vec<Answer> {
        let queries = &self.misread(queries);
        match self.slip {
            Some(Slip::SourceKept) => self.with_types_kept(image, queries, |request| &mut request.source),
            Some(Slip::DestinationKept) => self.with_types_kept(image, queries, |request| &mut request.destination),
            Some(Slip::FailureKept) => self.with_failure_kept(image, queries),
            Some(Slip::NearestKept) => self.with_nearest_kept(image, queries),
            Some(Slip::VerdictKept(predicate)) => self.with_verdicts_kept(image, queries, predicate, |_| 0),
            Some(Slip::VerdictKeptBack(predicate)) => {
                let another = |query: &Query| query.switches != queries[0].switches;
                let last = |row: usize| queries[..=row].iter().rposition(another).map_or(0, |other| other + 1);
                self.with_verdicts_kept(image, queries, predicate, last)
            }
            Some(Slip::VerdictOfWordBefore(predicate)) => {
                let changed = |rows: &&[Query]| rows[0].switches != rows[1].switches;
                let in_turn = |row: usize| queries[..=row].windows(2).filter(changed).count() % 2;
                self.with_verdicts_kept(image, queries, predicate, in_turn)
            }
            _ => queries.iter().map(|&query| self.decide(image, query)).collect(),
        }
    }

    /// The rows as a run reads them.
    fn misread(self, queries: &[Query]) -> Vec<Query> {
        let word = |query: &Query| match self.slip {
            Some(Slip::FirstWordKept) => queries[0].switches,
            Some(Slip::HalvesSwapped) => query.switches.rotate_left(16),
            _ => query.switches,
        };
        queries.iter().map(|query| Query { switches: word(query), ..*query }).collect()
    }

    fn with_types_kept(self, image: &[u8], queries: &[Query], side: fn(&mut Request) -> &mut Set) -> Vec<Answer> {
        let mut kept = Set::new();
        let answer = |&query: &Query| {
            let policy = self.accepted(image, query)?;
            let mut request = policy.request(query);
            kept.append(side(&mut request));
            *side(&mut request) = kept.clone();
            Ok(self.judge(&policy, &request))
        };
        queries.iter().map(answer).collect()
    }

    fn with_failure_kept(self, image: &[u8], queries: &[Query]) -> Vec<Answer> {
        let mut failed = BTreeMap::new();
        let answer = |&query: &Query| match (self.decide(image, query), failed.get(&(query.class, query.action))) {
            (Ok(Decision::Permitted { rule }), Some(&constraint)) => Ok(Decision::UnKnown { rule, constraint }),
            (Ok(Decision::UnKnown { rule, constraint }), None) => {
                failed.insert((query.class, query.action), constraint);
                Ok(Decision::UnKnown { rule, constraint })
            }
            (answer, _) => answer,
        };
        queries.iter().map(answer).collect()
    }

    fn with_nearest_kept(self, image: &[u8], queries: &[Query]) -> Vec<Answer> {
        let mut kept: Option<Nearest> = None;
        let answer = |&query: &Query| match self.decide(image, query) {
            Ok(Decision::NotPermitted { nearest }) => {
                let steps = |nearest: Option<Nearest>| nearest.map_or(0, |nearest| nearest.steps);
                kept = if steps(kept) > steps(nearest) { kept } else { nearest };
                Ok(Decision::NotPermitted { nearest: kept })
            }
            other => other,
        };
        queries.iter().map(answer).collect()
    }

    /// What a predicate said of a constraint is kept for the next rows, in one of several places by the row's number.
    pub fn with_verdicts_kept(
        self,
        image: &[u8],
        queries: &[Query],
        predicate: Predicate,
        place: impl Fn(usize) -> usize,
    ) -> Vec<Answer> {
        let mut kept = BTreeMap::new();
        let answer = |(row, &query): (usize, &Query)| {
            let policy = self.accepted(image, query)?;
            let request = policy.request(query);
            let (Decision::Permitted { rule } | Decision::UnKnown { rule, .. }) = self.judge(&policy, &request) else {
                return Ok(self.judge(&policy, &request));
            };
            let fails = |&(n, constraint): &(usize, &Constraint)| {
                let holds = || self.holds(constraint, &policy, &request);
                let asked = self.applies(constraint, &request) && self.concerns(constraint, &request);
                match Predicate::of(constraint.predicate) {
                    of if of == Some(predicate) => asked && !*kept.entry((place(row), n)).or_insert_with(holds),
                    _ => asked && !holds(),
                }
            };
            Ok(match policy.constraints.iter().enumerate().find(fails) {
                None => Decision::Permitted { rule },
                Some((constraint, _)) => Decision::UnKnown { rule, constraint: constraint as u16 },
            })
        };
        queries.iter().enumerate().map(answer).collect()
    }
}
