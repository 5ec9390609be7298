//! The engine's calls, with the causes 8, 9 and 14.

use super::bytes::{count_place, number};
use super::decide::Verdict;
use super::policy::Policy;
use super::twin_slip::Call;
use super::{refusal, Model, Slip, TwinSlip};
use crate::subject::{Answer, Subject, TextRefusal};
use mungaite::{Query, Refusal, Run, Section};
use std::ops::Range;

impl Subject for Model {
    fn check(&self, image: &[u8]) -> Result<(), Refusal> {
        self.read_for(Call::Check, image).map(drop)
    }

    fn record(&self, image: &[u8], section: Section, n: u16) -> Result<Range<usize>, Refusal> {
        if self.slips(Slip::RecordBeforeImage) && self.misses(image, section, n) {
            return Err(refusal(14, 0));
        }
        if self.slips_on_twins(TwinSlip::AfterRecordNumber) {
            self.read_old(image)?.of(section).get(usize::from(n)).ok_or(refusal(14, 0))?;
        }
        let records = self.read_for(Call::Record, image)?;
        let mut n = usize::from(n);
        let count = records.of(section).len();
        if self.slips(Slip::RecordPastEnd) && n == count && count > 0 {
            n -= 1;
        }
        if self.slips(Slip::RecordsFromOne) {
            n = n.checked_sub(1).ok_or(refusal(14, 0))?;
        }
        let record = records.of(section).get(n).ok_or(refusal(14, 0))?;
        let place = records.place(section, n);
        let place = if self.slips(Slip::RecordIn15Bits) { place % 32_768 } else { place };
        Ok(place..place + record.len())
    }

    fn decide(&self, image: &[u8], query: Query) -> Answer {
        if self.slips(Slip::QueryBeforeImage) {
            let groups = image.get(3..5).map_or(0, |field| number(field, 0));
            self.query_types(query, groups)?;
        }
        if self.slips_on_twins(TwinSlip::AfterQuery) {
            self.answer(&self.old_policy(image)?, query).map(drop)?;
        }
        self.answer(&self.policy(&self.read_for(Call::Decide, image)?), query)
    }

    fn run(&self, image: &[u8], queries: &[Query], answers: &mut [Answer]) -> Result<Run, Refusal> {
        self.answer_rows(image, queries, answers)
    }

    fn add(&self, buffer: &mut [u8], record: &[u8]) -> Result<u16, Refusal> {
        self.added(buffer, record)
    }

    fn permit(&self, input: &[u8]) -> String {
        self.printed(input)
    }

    fn build(&self, text: &[u8], buffer: &mut [u8]) -> Result<usize, TextRefusal> {
        self.built(text, buffer)
    }

    fn compile(&self, text: &[u8]) -> Result<Vec<u8>, String> {
        self.compiled(text)
    }

    fn convert(&self, image: &[u8], buffer: &mut [u8]) -> Result<usize, Refusal> {
        self.converted(image, buffer)
    }

    fn convert_program(&self, input: &[u8]) -> Result<Vec<u8>, String> {
        self.convert_output(input)
    }
}

impl Model {
    /// What each applying constraint says to the query; nothing where the call is refused or no rule covers it.
    pub fn verdicts(self, image: &[u8], query: Query) -> Vec<Verdict> {
        match self.accepted(image, query) {
            Ok(policy) => self.judge_constraints(&policy, &policy.request(query)),
            Err(_) => Vec::new(),
        }
    }

    /// The policy of an accepted image on which the query is accepted.
    pub fn accepted(self, image: &[u8], query: Query) -> Result<Policy, Refusal> {
        let policy = self.policy(&self.read(image)?);
        self.query_types(query, policy.groups.len() as u16)?;
        Ok(policy)
    }

    /// The policy of an image that passes 1 to 7, be there twins among its groups or not.
    pub fn old_policy(self, image: &[u8]) -> Result<Policy, Refusal> {
        self.read_old(image).map(|records| self.policy(&records))
    }

    /// The decision as it is defined on a policy, which may have twins: causes 8 and 9, then the decision.
    pub fn answer(self, policy: &Policy, query: Query) -> Answer {
        self.query_types(query, policy.groups.len() as u16)?;
        Ok(self.judge(policy, &policy.request(query)))
    }

    /// Causes 8 and 9.
    fn query_types(self, query: Query, groups: u16) -> Result<(), Refusal> {
        let mut fields = [(8, query.source), (9, query.destination)];
        if self.slips(Slip::DestinationFirst) {
            fields.reverse();
        }
        for (cause, field) in fields {
            if !self.is_type(field, groups) {
                return Err(refusal(cause, 0));
            }
        }
        Ok(())
    }

    /// Whether the header counts no such record.
    fn misses(self, image: &[u8], section: Section, n: u16) -> bool {
        image.len() >= 9 && number(image, count_place(section)) <= n
    }
}
