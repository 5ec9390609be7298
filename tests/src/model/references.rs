//! A rule's or a constraint's references, changed as request [7] of document 02 says: they follow the groups.

use super::bytes::number;
use super::fields::words;
use super::twin_slip::Field;
use super::{Model, TwinSlip};

impl Model {
    /// A rule or a constraint with its references changed.
    pub fn followed(self, record: &[u8], moved: &[u16]) -> Vec<u8> {
        let mut fields = match record[1] {
            2 => vec![(2, Field::Source), (4, Field::Destination)],
            3 => vec![(2, Field::Transition), (4, Field::Transition)],
            _ => vec![(6, Field::First), (8, Field::Second)],
        };
        if record[1] == 4 {
            fields.extend(words(record, 11).map(|at| (at, Field::Listed)));
        }
        let mut new = record.to_vec();
        for (at, name) in fields {
            let field = number(record, at);
            if field >= 32768 && !self.leaves(name, at, record.len()) {
                new[at..at + 2].copy_from_slice(&moved[usize::from(field - 32768)].to_be_bytes());
            }
        }
        match self.twin_slip {
            Some(TwinSlip::EqualListedGo) if record[1] == 4 => one_of_each(&new),
            _ => new,
        }
    }

    /// Whether a mistaken model leaves the reference in a field as it was.
    fn leaves(self, name: Field, at: usize, length: usize) -> bool {
        let is_list = name == Field::Listed;
        self.slips_on_twins(TwinSlip::NotFollowed(name))
            || self.slips_on_twins(TwinSlip::NotFollowed(Field::FirstListed)) && is_list && at == 11
            || self.slips_on_twins(TwinSlip::NotFollowed(Field::LastListed)) && is_list && at + 2 == length
    }
}

/// A constraint whose list has each type once.
fn one_of_each(constraint: &[u8]) -> Vec<u8> {
    let mut list: Vec<u16> = Vec::new();
    for at in words(constraint, 11) {
        if !list.contains(&number(constraint, at)) {
            list.push(number(constraint, at));
        }
    }
    let mut record = constraint[..11].to_vec();
    record.extend(list.iter().flat_map(|field| field.to_be_bytes()));
    record[0] = record.len() as u8;
    record
}
