//! Images written down record by record.

use mungaite::Section;

/// The predicates.
pub const BAN: u8 = 0;
pub const SEPARATION: u8 = 1;
pub const ROSTER: u8 = 2;
pub const COMPANION: u8 = 3;

/// The condition byte of a rule that waits for switch k, 0 to 31. One that is off has 0, and one that is on 1.
pub const fn switch(k: u8) -> u8 {
    2 + k
}

/// The records of a policy to be, right or wrong.
#[derive(Clone, Default)]
pub struct Draft {
    pub groups: Vec<Vec<u8>>,
    pub rules: Vec<Vec<u8>>,
    pub constraints: Vec<Vec<u8>>,
}

impl Draft {
    pub fn of(&self, section: Section) -> &[Vec<u8>] {
        match section {
            Section::Groups => &self.groups,
            Section::Rules => &self.rules,
            Section::Constraints => &self.constraints,
        }
    }

    /// Adds a group and gives the type field that names it.
    pub fn add_group(&mut self, members: impl IntoIterator<Item = u16>) -> u16 {
        self.groups.push(group(&members.into_iter().collect::<Vec<u16>>()));
        mungaite::group(self.groups.len() as u16 - 1)
    }

    /// The records in the order in which they stand.
    pub fn records(&self) -> impl Iterator<Item = &Vec<u8>> {
        self.groups.iter().chain(&self.rules).chain(&self.constraints)
    }

    pub fn image(&self) -> Vec<u8> {
        let length = 9 + self.records().map(Vec::len).sum::<usize>();
        let mut image = vec![1];
        for number in [length, self.groups.len(), self.rules.len(), self.constraints.len()] {
            image.extend((number as u16).to_be_bytes());
        }
        image.extend(self.records().flatten());
        image
    }
}

pub fn group(members: &[u16]) -> Vec<u8> {
    record(1, members, None, &[])
}

pub fn allow(source: u16, destination: u16, class: u16, action: u16, condition: u8) -> Vec<u8> {
    record(2, &[source, destination, class, action], Some(condition), &[])
}

pub fn transition(source: u16, destination: u16, class: u16) -> Vec<u8> {
    record(3, &[source, destination, class], None, &[])
}

pub fn constraint(class: u16, action: u16, first: u16, second: u16, predicate: u8, list: &[u16]) -> Vec<u8> {
    record(4, &[class, action, first, second], Some(predicate), list)
}

fn record(kind: u8, fields: &[u16], byte: Option<u8>, list: &[u16]) -> Vec<u8> {
    let mut record = vec![0, kind];
    record.extend(fields.iter().flat_map(|field| field.to_be_bytes()));
    record.extend(byte);
    record.extend(list.iter().flat_map(|field| field.to_be_bytes()));
    record[0] = u8::try_from(record.len()).expect("a record has at most 255 bytes");
    record
}
