//! The check of an image: causes 1 to 7, in the table's order, and 19.

use crate::format::{count, count_place, length_field, refusal, CONSTRAINTS, GROUPS, HEADER, LIMITS, RULES};
use crate::record::{bad_field, section_of};
use crate::twins::first_twin;
use mungaite::Refusal;

/// Checks a slice that is to be an image, whole.
pub fn check(image: &[u8]) -> Result<(), Refusal> {
    check_but_for_twins(image)?;
    check_twins(image)
}

/// Causes 1 to 7.
pub fn check_but_for_twins(image: &[u8]) -> Result<(), Refusal> {
    check_header(image)?;
    check_records(image)
}

/// The same, with the place where each section starts. Written out beside `check`, which is the faster without them.
pub fn starts(image: &[u8]) -> Result<[usize; 3], Refusal> {
    check_header(image)?;
    let rules = check_section::<GROUPS>(image, HEADER)?;
    let constraints = check_section::<RULES>(image, rules)?;
    let end = check_section::<CONSTRAINTS>(image, constraints)?;
    if end < image.len() {
        return Err(refusal(7, end));
    }
    check_twins(image)?;
    Ok([HEADER, rules, constraints])
}

/// Checks the image that starts a longer slice and gives its length.
pub fn check_front(bytes: &[u8]) -> Result<usize, Refusal> {
    let length = length_field(bytes)?;
    if length < HEADER || length > bytes.len() {
        return Err(refusal(3, 0));
    }
    check(&bytes[..length])?;
    Ok(length)
}

fn check_header(image: &[u8]) -> Result<(), Refusal> {
    if length_field(image)? != image.len() {
        return Err(refusal(3, 0));
    }
    check_counts(image)
}

fn check_counts(image: &[u8]) -> Result<(), Refusal> {
    match (0..LIMITS.len()).find(|&section| count(image, section) > LIMITS[section]) {
        Some(section) => Err(refusal(4, count_place(section))),
        None => Ok(()),
    }
}

fn check_records(image: &[u8]) -> Result<(), Refusal> {
    let rules = check_section::<GROUPS>(image, HEADER)?;
    let constraints = check_section::<RULES>(image, rules)?;
    let end = check_section::<CONSTRAINTS>(image, constraints)?;
    if end < image.len() {
        return Err(refusal(7, end));
    }
    Ok(())
}

/// Cause 19.
fn check_twins(image: &[u8]) -> Result<(), Refusal> {
    match first_twin(image) {
        Some(place) => Err(refusal(19, place)),
        None => Ok(()),
    }
}

/// Checks the records of a section that starts at a place and gives its end.
fn check_section<const SECTION: usize>(image: &[u8], start: usize) -> Result<usize, Refusal> {
    let groups = count(image, GROUPS);
    let mut at = start;
    for _ in 0..count(image, SECTION) {
        let record = record_at::<SECTION>(image, at).ok_or(refusal(5, at))?;
        if let Some(place) = bad_field(record, groups) {
            return Err(refusal(6, at + place));
        }
        at += record.len();
    }
    Ok(at)
}

/// The record that starts at a place, if its shape is one of the section's.
#[inline]
fn record_at<const SECTION: usize>(image: &[u8], at: usize) -> Option<&[u8]> {
    let rest = &image[at..];
    match *rest {
        [length, kind, ..] if section_of(length, kind) == Some(SECTION) => rest.get(..usize::from(length)),
        _ => None,
    }
}
