//! What is tested, be it the library and the program, the hand-written engine or the model.

use mungaite::{Decision, Query, Refusal, Run, Section};
use std::ops::Range;

/// What a query gets, alone or as a row.
pub type Answer = Result<Decision, Refusal>;

/// The refusal of a text: the cause's number, and the place of a row in the text.
#[derive(Clone, Copy, Debug, PartialEq, Eq)]
pub struct TextRefusal {
    pub number: u16,
    pub place: usize,
}

pub trait Subject: Sync {
    fn check(&self, image: &[u8]) -> Result<(), Refusal>;

    /// Where record `n` stands in the image.
    fn record(&self, image: &[u8], section: Section, n: u16) -> Result<Range<usize>, Refusal>;

    fn decide(&self, image: &[u8], query: Query) -> Answer;

    /// Each row's answer in its slot, and what is said of all rows.
    fn run(&self, image: &[u8], queries: &[Query], answers: &mut [Answer]) -> Result<Run, Refusal>;

    fn add(&self, buffer: &mut [u8], record: &[u8]) -> Result<u16, Refusal>;

    /// The whole output of the program `permit` for its input.
    fn permit(&self, input: &[u8]) -> String;

    /// The length of the image that a text builds in a buffer.
    fn build(&self, text: &[u8], buffer: &mut [u8]) -> Result<usize, TextRefusal>;

    /// What the program `compile` writes for a text: the image, or the line of a refusal.
    fn compile(&self, text: &[u8]) -> Result<Vec<u8>, String>;

    /// The length of an old image without its twins, which is written to a buffer.
    fn convert(&self, image: &[u8], buffer: &mut [u8]) -> Result<usize, Refusal>;

    /// What the program `convert` writes for its input: the new image, or the line of a refusal.
    fn convert_program(&self, input: &[u8]) -> Result<Vec<u8>, String>;
}
