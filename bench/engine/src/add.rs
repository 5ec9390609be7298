//! One more record at the end of its section.

use crate::check::check_front;
use crate::format::{count, count_place, put, refusal, GROUPS, HEADER, LIMITS};
use crate::give::{place_after, records_before};
use crate::record::{bad_field, section_of};
use mungaite::Refusal;

/// Adds a record to the image that starts the buffer and gives its number. A refusal leaves the buffer as it was.
pub fn add(buffer: &mut [u8], record: &[u8]) -> Result<u16, Refusal> {
    let length = check_front(buffer)?;
    let section = shape(record).ok_or(refusal(10, 0))?;
    if let Some(place) = bad_field(record, count(buffer, GROUPS)) {
        return Err(refusal(11, place));
    }
    if section == GROUPS && is_there(buffer, record) {
        return Err(refusal(20, 0));
    }
    let number = count(buffer, section);
    if number == LIMITS[section] {
        return Err(refusal(12, 0));
    }
    let grown = length + record.len();
    if grown > buffer.len() {
        return Err(refusal(13, 0));
    }
    let at = place_after(buffer, HEADER, records_before(buffer, section + 1));
    buffer.copy_within(at..length, at + record.len());
    buffer[at..at + record.len()].copy_from_slice(record);
    put(buffer, 1, grown as u16);
    put(buffer, count_place(section), number + 1);
    Ok(number)
}

/// The section of a lent record whose length and kind are right.
fn shape(record: &[u8]) -> Option<usize> {
    match *record {
        [length, kind, ..] if usize::from(length) == record.len() => section_of(length, kind),
        _ => None,
    }
}

/// Whether the image has this group. Groups of another length differ in their first byte.
fn is_there(image: &[u8], group: &[u8]) -> bool {
    let mut rest = &image[HEADER..];
    (0..count(image, GROUPS)).any(|_| {
        let same = rest.starts_with(group);
        rest = &rest[usize::from(rest[0])..];
        same
    })
}
