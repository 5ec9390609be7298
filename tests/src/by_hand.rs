//! The hand-written engine of the benchmark, tested as Mungaite is.

use crate::subject::{Answer, Subject, TextRefusal};
use crate::text::row_number;
use hand_written::{decide_checked, Prepared};
use mungaite::{Query, Refusal, Run, Section, LARGEST};
use std::ops::Range;

pub struct ByHand;

impl Subject for ByHand {
    fn check(&self, image: &[u8]) -> Result<(), Refusal> {
        hand_written::check(image)
    }

    fn record(&self, image: &[u8], section: Section, n: u16) -> Result<Range<usize>, Refusal> {
        hand_written::record(image, section, n)
    }

    /// The answer, the same by its three ways.
    fn decide(&self, image: &[u8], query: Query) -> Answer {
        let answer = hand_written::decide(image, query);
        if hand_written::check(image).is_ok() {
            assert_eq!(decide_checked(image, query), answer, "{query:?} on a checked image");
            assert_eq!(Prepared::new(image).decide(query), answer, "{query:?} on a prepared image");
        }
        answer
    }

    /// The answers, the same by both ways.
    fn run(&self, image: &[u8], queries: &[Query], answers: &mut [Answer]) -> Result<Run, Refusal> {
        let mut prepared = answers.to_vec();
        let said = hand_written::run(image, queries, answers);
        if hand_written::check(image).is_ok() {
            assert_eq!(Prepared::new(image).run(queries, &mut prepared), said, "{queries:?} on a prepared image");
            assert_eq!(prepared, answers, "{queries:?} on a prepared image");
        }
        said
    }

    fn add(&self, buffer: &mut [u8], record: &[u8]) -> Result<u16, Refusal> {
        hand_written::add(buffer, record)
    }

    fn permit(&self, input: &[u8]) -> String {
        hand_written::permit(input)
    }

    fn build(&self, text: &[u8], buffer: &mut [u8]) -> Result<usize, TextRefusal> {
        hand_written::build(text, buffer)
            .map_err(|refused| TextRefusal { number: refused.number, place: refused.place })
    }

    /// What it builds in a buffer for the largest image, as the program would write it.
    fn compile(&self, text: &[u8]) -> Result<Vec<u8>, String> {
        let mut buffer = vec![0; LARGEST];
        match self.build(text, &mut buffer) {
            Ok(length) => Ok(buffer[..length].to_vec()),
            Err(TextRefusal { number, place }) => Err(format!("R {number} {place} {}\n", row_number(text, place))),
        }
    }

    fn convert(&self, image: &[u8], buffer: &mut [u8]) -> Result<usize, Refusal> {
        hand_written::convert(image, buffer)
    }

    /// What it writes to a buffer for the largest image, as the program would write it.
    fn convert_program(&self, input: &[u8]) -> Result<Vec<u8>, String> {
        let mut buffer = vec![0; LARGEST];
        match self.convert(input, &mut buffer) {
            Ok(length) => Ok(buffer[..length].to_vec()),
            Err(Refusal { number, place }) => Err(format!("R {number} {place}\n")),
        }
    }
}
