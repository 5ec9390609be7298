//! Twin groups, request [7] of document 02: which they are, and the causes 19 and 20.

use super::bytes::Records;
use super::policy::{members, touches, within, Set};
use super::twin_slip::Call;
use super::{refusal, Model, TwinSlip};
use mungaite::{Refusal, Section};

impl Model {
    /// The records of an accepted image, or the first cause that applies to it: 1 to 7, then 19.
    pub fn read(self, image: &[u8]) -> Result<Records, Refusal> {
        let records = self.read_old(image)?;
        self.no_twins(&records)?;
        Ok(records)
    }

    /// The same, as one of the calls reads an image.
    pub fn read_for(self, call: Call, image: &[u8]) -> Result<Records, Refusal> {
        match self.slips_on_twins(TwinSlip::Taken(call)) {
            true => self.read_old(image),
            false => self.read(image),
        }
    }

    /// Two groups with equal members.
    pub fn twins(self, a: &Set, b: &Set) -> bool {
        match self.twin_slip {
            None => a == b,
            Some(TwinSlip::ByLength) => a.len() == b.len(),
            Some(TwinSlip::ByFirstMember) => a.first() == b.first(),
            Some(TwinSlip::ByLastMember) => a.last() == b.last(),
            Some(TwinSlip::LastMemberIgnored) => {
                a.len() == b.len() && a.iter().rev().skip(1).eq(b.iter().rev().skip(1))
            }
            Some(TwinSlip::FirstMemberIgnored) => a.len() == b.len() && a.iter().skip(1).eq(b.iter().skip(1)),
            Some(TwinSlip::ByFront) => a.iter().zip(b).all(|(one, other)| one == other),
            Some(TwinSlip::ByLowBytes) => a.iter().map(|m| m % 256).eq(b.iter().map(|m| m % 256)),
            Some(TwinSlip::ByTouch) => touches(a, b),
            Some(TwinSlip::ByInclusion) => within(a, b) || within(b, a),
            Some(TwinSlip::NeverTwins) => false,
            Some(_) => a == b,
        }
    }

    /// The lowest group before group `n` that is its twin.
    pub fn earlier_twin(self, groups: &[Set], n: usize) -> Option<usize> {
        let compared = |m: &usize| match self.twin_slip {
            Some(TwinSlip::LastGroupIgnored) => n + 1 < groups.len(),
            Some(TwinSlip::FirstGroupIgnored) => *m > 0,
            Some(TwinSlip::NeighboursOnly) => m + 1 == n,
            Some(TwinSlip::WithFirstOnly) => *m == 0,
            _ => true,
        };
        (0..n).filter(compared).find(|&m| self.twins(&groups[m], &groups[n]))
    }

    /// 19 at the first group that has an earlier twin.
    pub fn no_twins(self, records: &Records) -> Result<(), Refusal> {
        let groups = &records.members();
        let is_twin = |n: &usize| {
            self.earlier_twin(groups, *n).is_some()
                || self.slips_on_twins(TwinSlip::OneMemberIsTwin) && groups[*n].len() == 1
        };
        let mut twins = (0..groups.len()).filter(is_twin);
        let named = match self.twin_slip {
            Some(TwinSlip::LastNamed) => twins.next_back(),
            Some(TwinSlip::EarlierNamed) => twins.next().and_then(|n| self.earlier_twin(groups, n)),
            _ => twins.next(),
        };
        match named {
            Some(n) => Err(refusal(19, self.twin_place(records.place(Section::Groups, n), n))),
            None => self.no_equal_records(records),
        }
    }

    /// The place that a twin is named by.
    fn twin_place(self, place: usize, n: usize) -> usize {
        match self.twin_slip {
            Some(TwinSlip::NamedAtZero) => 0,
            Some(TwinSlip::MemberNamed) => place + 2,
            Some(TwinSlip::NumberNamed) => n,
            _ => place,
        }
    }

    /// Rules and constraints may be equal; a mistaken model refuses them.
    fn no_equal_records(self, records: &Records) -> Result<(), Refusal> {
        let section = match self.twin_slip {
            Some(TwinSlip::EqualRulesRefused) => Section::Rules,
            Some(TwinSlip::EqualConstraintsRefused) => Section::Constraints,
            _ => return Ok(()),
        };
        let list = records.of(section);
        match (0..list.len()).find(|&n| list[..n].contains(&list[n])) {
            Some(n) => Err(refusal(19, records.place(section, n))),
            None => Ok(()),
        }
    }

    /// The group whose twin is to be added.
    pub fn twin_of_added(self, old: &Records, record: &[u8]) -> Option<usize> {
        let section = match (record[1], self.twin_slip) {
            (1, Some(TwinSlip::AddedTaken)) => return None,
            (1, Some(TwinSlip::OneMemberIsTwin)) if record.len() == 4 => return Some(0),
            (1, _) => Section::Groups,
            (2 | 3, Some(TwinSlip::EqualRulesRefused)) => Section::Rules,
            (4, Some(TwinSlip::EqualConstraintsRefused)) => Section::Constraints,
            _ => return None,
        };
        let there = old.of(section);
        let compared = |n: &usize| match self.twin_slip {
            Some(TwinSlip::AddedNotWithLast) => n + 1 < there.len(),
            Some(TwinSlip::AddedNotWithFirst) => *n > 0,
            Some(TwinSlip::AddedWithLastOnly) => n + 1 == there.len(),
            _ => true,
        };
        let equal = |n: &usize| match section {
            Section::Groups => self.twins(&members(&there[*n]), &members(record)),
            _ => there[*n] == record,
        };
        (0..there.len()).filter(compared).find(equal)
    }

    /// The refusal of an added twin of a group: 20.
    pub fn added_twin(self, old: &Records, twin: usize) -> Refusal {
        match self.twin_slip {
            Some(TwinSlip::AddedRefusedAsField) => refusal(11, 2),
            Some(TwinSlip::AddedPlaceOfTwin) => refusal(20, old.place(Section::Groups, twin)),
            Some(TwinSlip::AddedPlaceOfMember) => refusal(20, 2),
            _ => refusal(20, 0),
        }
    }

    /// Whether a mistaken walk over the records refuses twins at this point: behind a group, behind all groups, or
    /// behind the last record.
    pub fn twins_early(self, slip: TwinSlip, records: &Records) -> Result<(), Refusal> {
        match self.slips_on_twins(slip) {
            true => self.no_twins(records),
            false => Ok(()),
        }
    }
}
