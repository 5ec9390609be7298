//! The image's layout: its numbers, its header and its limits.

use mungaite::{Query, Refusal, Section};

pub const VERSION: u8 = 1;
pub const HEADER: usize = 9;

/// The sections, in the order in which they stand.
pub const GROUPS: usize = Section::Groups as usize;
pub const RULES: usize = Section::Rules as usize;
pub const CONSTRAINTS: usize = Section::Constraints as usize;

/// The most records that each section may hold.
pub const LIMITS: [u16; 3] = [256, 1024, 256];

pub const BASIC_TYPES: u16 = 1024;
pub const FIRST_GROUP: u16 = 32768;

/// Places lie within an image, whose length is a 16-bit number.
pub fn refusal(number: u16, place: usize) -> Refusal {
    Refusal { number, place: place as u16 }
}

#[inline]
pub fn number(bytes: &[u8], at: usize) -> u16 {
    u16::from_be_bytes([bytes[at], bytes[at + 1]])
}

pub fn put(bytes: &mut [u8], at: usize, number: u16) {
    bytes[at..at + 2].copy_from_slice(&number.to_be_bytes());
}

/// Where the header holds the count of a section.
pub fn count_place(section: usize) -> usize {
    3 + 2 * section
}

pub fn count(image: &[u8], section: usize) -> u16 {
    number(image, count_place(section))
}

/// Causes 1 and 2; otherwise the length field.
pub fn length_field(bytes: &[u8]) -> Result<usize, Refusal> {
    if bytes.len() < HEADER {
        return Err(refusal(1, 0));
    }
    if bytes[0] != VERSION {
        return Err(refusal(2, 0));
    }
    Ok(usize::from(number(bytes, 1)))
}

/// Causes 8 and 9, in a policy of so many groups.
#[inline]
pub fn check_query(query: Query, groups: u16) -> Result<(), Refusal> {
    if !is_type(query.source, groups) {
        return Err(refusal(8, 0));
    }
    if !is_type(query.destination, groups) {
        return Err(refusal(9, 0));
    }
    Ok(())
}

/// The group that a type field names, if it names one.
#[inline]
pub fn group_of(field: u16) -> Option<usize> {
    field.checked_sub(FIRST_GROUP).map(usize::from)
}

/// Whether a field is a type in a policy of so many groups.
#[inline]
pub fn is_type(field: u16, groups: u16) -> bool {
    field < BASIC_TYPES || (field >= FIRST_GROUP && field - FIRST_GROUP < groups)
}
