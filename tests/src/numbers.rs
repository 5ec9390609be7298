//! A run, a text and an old image by the C functions themselves: rows and answers as numbers, by the table of
//! `mungaite.h`.

use crate::subject::{Answer, TextRefusal};
use mungaite::raw::{mungaite_build, mungaite_convert, mungaite_run};
use mungaite::{Decision, Nearest, Query, Refusal, Run};

/// Slots on either side of a list of answers, which no call may touch.
const GUARD: [u64; 4] = [0xA5A5_A5A5_A5A5_A5A5; 4];

/// The function's answer. Panics where it wrote past its list.
pub fn run(image: &[u8], numbers: &[u16], slots: &mut [u64]) -> u64 {
    let mut guarded = [&GUARD, &*slots, &GUARD].concat();
    let (before, rest) = guarded.split_at_mut(GUARD.len());
    let (lent, behind) = rest.split_at_mut(slots.len());
    let (count, rows) = (numbers.len(), lent.len());
    // SAFETY: each pointer and count are those of one slice, and the slice that is written overlaps no other.
    let said = unsafe { mungaite_run(numbers.as_ptr(), count, lent.as_mut_ptr(), rows, image.as_ptr(), image.len()) };
    assert!(before == GUARD && behind == GUARD, "the run wrote outside of its answers");
    slots.copy_from_slice(lent);
    said
}

/// The answer to a text. The buffer's bounds are the caller's to guard.
pub fn build(text: &[u8], buffer: &mut [u8]) -> u64 {
    // SAFETY: each pointer and count are those of one slice, and the slice that is written overlaps no other.
    unsafe { mungaite_build(text.as_ptr(), text.len(), buffer.as_mut_ptr(), buffer.len()) }
}

/// The image's length; or the refusal's number in the highest 16 bits, and its place.
pub fn of_build(said: Result<usize, TextRefusal>) -> u64 {
    match said {
        Ok(length) => length as u64,
        Err(TextRefusal { number, place }) => u64::from(number) << 48 | place as u64,
    }
}

/// The answer to an old image. The buffer's bounds are the caller's to guard.
pub fn convert(image: &[u8], buffer: &mut [u8]) -> u64 {
    // SAFETY: each pointer and count are those of one slice, and the slice that is written overlaps no other.
    unsafe { mungaite_convert(image.as_ptr(), image.len(), buffer.as_mut_ptr(), buffer.len()) }
}

pub fn of_convert(said: Result<usize, Refusal>) -> u64 {
    match said {
        Ok(length) => parts(1, 0, length as u16),
        Err(Refusal { number, place }) => parts(2, number, place),
    }
}

/// The six numbers of each row: the high and the low half of its switch word are last.
pub fn of_rows(queries: &[Query]) -> Vec<u16> {
    let numbers = |query: &Query| {
        let halves = [(query.switches / 65536) as u16, (query.switches % 65536) as u16];
        [query.source, query.destination, query.class, query.action, halves[0], halves[1]]
    };
    queries.iter().flat_map(numbers).collect()
}

pub fn of_answer(answer: Answer) -> u64 {
    match answer {
        Ok(Decision::NotPermitted { nearest: Some(Nearest { steps, rule }) }) => parts(0, u16::from(steps), rule),
        Ok(Decision::NotPermitted { nearest: None }) => parts(0, 0, 65535),
        Ok(Decision::Permitted { rule }) => parts(1, 0, rule),
        Ok(Decision::UnKnown { rule, constraint }) => parts(3, rule, constraint),
        Err(Refusal { number, place }) => parts(2, number, place),
    }
}

pub fn of_run(said: Result<Run, Refusal>) -> u64 {
    match said {
        Ok(Run::Fit) => parts(1, 0, 0),
        Ok(Run::Unfit { row }) => parts(0, 0, row as u16),
        Err(Refusal { number, place }) => parts(2, number, place),
    }
}

/// The second, third and fourth part; the first is 0.
fn parts(second: u16, third: u16, fourth: u16) -> u64 {
    u64::from(second) << 32 | u64::from(third) << 16 | u64::from(fourth)
}
