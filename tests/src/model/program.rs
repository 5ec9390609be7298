//! What the program `permit` prints, with the cause 15.

use super::bytes::number;
use super::twin_slip::Call;
use super::{refusal, Model, Slip};
use crate::subject::{Answer, Subject};
use mungaite::{Decision, Nearest, Query, Refusal};

impl Model {
    /// The whole output for an input: an image, then queries of 12 bytes.
    pub fn printed(self, input: &[u8]) -> String {
        let leading = if self.slips(Slip::ImageToInputEnd) { Ok(input) } else { self.leading_image(input) };
        let accepted = leading.and_then(|image| self.read_for(Call::Permit, image).map(|_| image));
        let image = match accepted {
            Ok(image) => image,
            Err(refusal) => return self.line(Err(refusal)),
        };
        let length = if self.slips(Slip::QueriesOf8) { 8 } else { 12 };
        let mut queries: Vec<Query> = Vec::new();
        let mut left = &input[image.len()..];
        while let Some((bytes, rest)) = left.split_at_checked(length) {
            queries.push(self.query(bytes));
            left = rest;
        }
        let mut answers = match self.slip {
            Some(Slip::ProgramVerdictKept(predicate)) => self.with_verdicts_kept(image, &queries, predicate, |_| 0),
            _ => queries.iter().map(|&query| self.decide(image, query)).collect(),
        };
        match self.slip {
            _ if left.is_empty() => {}
            Some(Slip::LeftoverIgnored) => {}
            Some(Slip::LeftoverAlone) => answers = vec![Err(refusal(15, 0))],
            Some(Slip::ShortWordPasses) if left.len() >= 8 => {
                answers.push(self.decide(image, self.query(&[left, &[0; 4]].concat())));
            }
            _ => answers.push(Err(refusal(15, 0))),
        }
        if self.slips(Slip::StopsAtRefusedQuery) {
            answers.truncate(answers.iter().position(Result::is_err).map_or(answers.len(), |refused| refused + 1));
        }
        answers.into_iter().map(|answer| self.line(answer)).collect()
    }

    /// A query of the program: the word comes last.
    fn query(self, bytes: &[u8]) -> Query {
        let at = if self.slips(Slip::WordFirst) { 4 } else { 0 };
        let word = match self.slip {
            Some(Slip::QueriesOf8) => 0,
            Some(Slip::WordFirst) => word(&bytes[..4]),
            Some(Slip::WordLittleEndian) => word(&bytes[8..12]).swap_bytes(),
            _ => word(&bytes[8..12]),
        };
        Query {
            source: number(bytes, at),
            destination: number(bytes, at + 2),
            class: number(bytes, at + 4),
            action: number(bytes, at + 6),
            switches: word,
        }
    }

    /// The program's line for an answer.
    fn line(self, answer: Answer) -> String {
        match answer {
            Ok(Decision::NotPermitted { .. }) if self.slips(Slip::DenialAlone) => "N\n".to_string(),
            Ok(Decision::NotPermitted { nearest: Some(Nearest { steps, rule }) }) => match self.slip {
                Some(Slip::RuleBeforeSteps) => format!("N {rule} {steps}\n"),
                _ => format!("N {steps} {rule}\n"),
            },
            Ok(Decision::NotPermitted { nearest: None }) => match self.slip {
                Some(Slip::NoRulesAsNumbers) => "N 0 65535\n".to_string(),
                _ => "N -\n".to_string(),
            },
            Ok(Decision::Permitted { rule }) => format!("P {rule}\n"),
            Ok(Decision::UnKnown { rule, constraint }) if self.slips(Slip::ConstraintBeforeRule) => {
                format!("U {constraint} {rule}\n")
            }
            Ok(Decision::UnKnown { rule, constraint }) => format!("U {rule} {constraint}\n"),
            Err(Refusal { number, place }) => format!("R {number} {place}\n"),
        }
    }
}

/// The big-endian number of four bytes.
fn word(bytes: &[u8]) -> u32 {
    bytes.iter().fold(0, |word, &byte| word * 256 + u32::from(byte))
}
