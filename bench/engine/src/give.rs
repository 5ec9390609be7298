//! Record n of a section.

use crate::check::starts;
use crate::format::{count, refusal};
use core::ops::Range;
use mungaite::{Refusal, Section};

/// Where record n of a section stands in the image.
pub fn record(image: &[u8], section: Section, n: u16) -> Result<Range<usize>, Refusal> {
    let section = section as usize;
    let starts = starts(image)?;
    if n >= count(image, section) {
        return Err(refusal(14, 0));
    }
    let place = place_after(image, starts[section], usize::from(n));
    Ok(place..place + usize::from(image[place]))
}

/// How many records the sections before this one have.
pub fn records_before(image: &[u8], section: usize) -> usize {
    (0..section).map(|section| usize::from(count(image, section))).sum()
}

/// The place that so many records end at, from a place on.
pub fn place_after(image: &[u8], from: usize, records: usize) -> usize {
    (0..records).fold(from, |at, _| at + usize::from(image[at]))
}
