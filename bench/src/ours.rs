//! Mungaite's functions, as libmungaite.a exports them to C, by the raw declarations of the crate in `rust/`.
//! None of them decides without a check, so `contest` takes the decision alone as a difference.

use mungaite::raw::{mungaite_build, mungaite_check, mungaite_convert, mungaite_decide, mungaite_record, mungaite_run};
use mungaite::{Query, Section};

pub fn check(image: &[u8]) -> u64 {
    // SAFETY: the pointer and the length are those of one slice, only read.
    unsafe { mungaite_check(image.as_ptr(), image.len()) }
}

pub fn decide(image: &[u8], query: Query) -> u64 {
    let Query { source, destination, class, action, switches } = query;
    // SAFETY: the pointer and the length are those of one slice, only read.
    unsafe { mungaite_decide(source, destination, class, action, switches, image.as_ptr(), image.len()) }
}

pub fn record(image: &[u8], section: Section, n: u16) -> u64 {
    // SAFETY: the pointer and the length are those of one slice, only read.
    unsafe { mungaite_record(section as u16, n, image.as_ptr(), image.len()) }
}

/// Rows of six numbers, and a slot for each.
pub fn run(image: &[u8], numbers: &[u16], answers: &mut [u64]) -> u64 {
    let (count, rows) = (numbers.len(), answers.len());
    // SAFETY: each pointer and count are those of one slice, and the slice that is written overlaps no other.
    unsafe { mungaite_run(numbers.as_ptr(), count, answers.as_mut_ptr(), rows, image.as_ptr(), image.len()) }
}

pub fn build(text: &[u8], buffer: &mut [u8]) -> u64 {
    // SAFETY: each pointer and length are those of one slice, and the slice that is written overlaps no other.
    unsafe { mungaite_build(text.as_ptr(), text.len(), buffer.as_mut_ptr(), buffer.len()) }
}

pub fn convert(image: &[u8], buffer: &mut [u8]) -> u64 {
    // SAFETY: each pointer and length are those of one slice, and the slice that is written overlaps no other.
    unsafe { mungaite_convert(image.as_ptr(), image.len(), buffer.as_mut_ptr(), buffer.len()) }
}
