//! "The policy image": numbers in bytes, and an image as three lists of records.

use super::policy::{members, Set};
use mungaite::Section;

/// The length of the header, and so of the empty policy.
pub const HEADER: usize = 9;

/// The big-endian number at a place.
pub fn number(bytes: &[u8], place: usize) -> u16 {
    u16::from(bytes[place]) * 256 + u16::from(bytes[place + 1])
}

/// The place of a section's count in the header.
pub fn count_place(section: Section) -> usize {
    match section {
        Section::Groups => 3,
        Section::Rules => 5,
        Section::Constraints => 7,
    }
}

/// The records of an image, each its own bytes, by section.
#[derive(Default)]
pub struct Records {
    lists: [Vec<Vec<u8>>; 3],
}

impl Records {
    pub fn of(&self, section: Section) -> &[Vec<u8>] {
        &self.lists[section as usize]
    }

    pub fn push(&mut self, section: Section, record: &[u8]) {
        self.lists[section as usize].push(record.to_vec());
    }

    /// These records with one more at the start of its section.
    pub fn with_first(mut self, section: Section, record: &[u8]) -> Records {
        self.lists[section as usize].insert(0, record.to_vec());
        self
    }

    /// The members of each group.
    pub fn members(&self) -> Vec<Set> {
        self.of(Section::Groups).iter().map(|group| members(group)).collect()
    }

    /// The place of a record in the image that holds these records.
    pub fn place(&self, section: Section, n: usize) -> usize {
        let earlier = Section::ALL.into_iter().filter(|other| *other < section).flat_map(|other| self.of(other));
        HEADER + earlier.chain(&self.of(section)[..n]).map(Vec::len).sum::<usize>()
    }

    /// The length of the image that holds these records.
    pub fn image_length(&self) -> usize {
        HEADER + self.lists.iter().flatten().map(Vec::len).sum::<usize>()
    }

    /// The image that holds these records.
    pub fn image(&self) -> Vec<u8> {
        let records: Vec<u8> = self.lists.iter().flatten().flatten().copied().collect();
        let mut image = vec![1];
        image.extend(big_endian(HEADER + records.len()));
        for list in &self.lists {
            image.extend(big_endian(list.len()));
        }
        image.extend(records);
        image
    }
}

fn big_endian(number: usize) -> [u8; 2] {
    [(number / 256) as u8, (number % 256) as u8]
}
