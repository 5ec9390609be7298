//! The rules of a record's fields, in byte order.

use super::bytes::number;
use super::{Model, Slip};

/// A rule of a field.
#[derive(Clone, Copy)]
pub struct Test {
    /// The field's place in the record.
    pub at: usize,
    pub asks: Asks,
    pub holds: bool,
}

/// What a rule asks of its field.
#[derive(Clone, Copy, PartialEq, Eq)]
pub enum Asks {
    /// To be above the member before it.
    Rising,
    Basic,
    Type,
    /// To be a condition, a predicate, or the predicate of such a list.
    Byte,
    /// To be a type of a list.
    Listed,
}

impl Model {
    /// The first field of a record that breaks its rule, as a place in the record. Kind and length are right.
    pub fn fields(self, record: &[u8], groups: u16) -> Result<(), usize> {
        let mut tests = match record[1] {
            1 => self.group_fields(record),
            2 => [self.type_fields(record, Asks::Type, &[2, 4], groups), vec![self.condition(record)]].concat(),
            3 => self.type_fields(record, Asks::Type, &[2, 4], groups),
            _ => self.constraint_fields(record, groups),
        };
        self.misorder(record[1], &mut tests);
        match tests.iter().find(|test| !test.holds) {
            Some(test) if self.slips(Slip::FieldPlaceOff) => Err(test.at + 1),
            Some(test) => Err(test.at),
            None => Ok(()),
        }
    }

    /// Basic types, strictly rising. Of two members that do not rise the later is the bad one.
    fn group_fields(self, record: &[u8]) -> Vec<Test> {
        let mut tests = Vec::new();
        let mut lowest = 0;
        for at in words(record, 2) {
            let member = number(record, at);
            let last = at + 2 >= record.len();
            let named = if self.slips(Slip::EarlierMemberNamed) && at > 2 { at - 2 } else { at };
            tests.push(Test { at: named, asks: Asks::Rising, holds: lowest <= member });
            let basic = self.is_basic(member) || self.slips(Slip::LastMemberBasic) && !last;
            tests.push(Test { at, asks: Asks::Basic, holds: basic });
            lowest = if self.slips(Slip::RisingNotStrict) { member } else { member.saturating_add(1) };
        }
        tests
    }

    /// Off, on, or one of 32 switches.
    fn condition(self, record: &[u8]) -> Test {
        let most = match self.slip {
            Some(Slip::ConditionAny) => 255,
            Some(Slip::ConditionOver) => 34,
            Some(Slip::ConditionUnder) => 32,
            Some(Slip::SwitchesRefused) => 1,
            _ => 33,
        };
        Test { at: 10, asks: Asks::Byte, holds: record[10] <= most }
    }

    fn constraint_fields(self, record: &[u8], groups: u16) -> Vec<Test> {
        let predicate = record[10];
        let list: Vec<usize> = words(record, 11).collect();
        let suits = match predicate {
            2 => !list.is_empty(),
            3 if self.slips(Slip::CompanionWithList) => true,
            _ => list.is_empty(),
        };
        let list_place = if self.slips(Slip::UnsuitedListPlace) { 11 } else { 10 };
        let mut tests = self.type_fields(record, Asks::Type, &[6, 8], groups);
        tests.push(Test { at: 10, asks: Asks::Byte, holds: predicate <= 3 });
        tests.push(Test { at: list_place, asks: Asks::Byte, holds: suits || self.slips(Slip::ListUnchecked) });
        tests.extend(self.type_fields(record, Asks::Listed, &list, groups));
        if self.slips(Slip::LastListedUnchecked) && !list.is_empty() {
            tests.pop();
        }
        tests
    }

    fn type_fields(self, record: &[u8], asks: Asks, places: &[usize], groups: u16) -> Vec<Test> {
        places.iter().map(|&at| Test { at, asks, holds: self.is_type(number(record, at), groups) }).collect()
    }

    /// A type field: a basic type, or 32768 and the number of a group.
    pub fn is_type(self, field: u16, groups: u16) -> bool {
        if field < 32768 {
            self.is_basic(field)
        } else {
            let group = field - 32768;
            match self.slip {
                Some(Slip::GroupOver) => group <= groups,
                Some(Slip::GroupUnder) => group + 1 < groups,
                _ => group < groups,
            }
        }
    }

    fn is_basic(self, field: u16) -> bool {
        match self.slip {
            Some(Slip::BasicTypeOver) => field <= 1024,
            Some(Slip::BasicTypeUnder) => field <= 1022,
            _ => field <= 1023,
        }
    }

    /// Puts the tests into the order of a mistaken model; leaves them in byte order otherwise.
    fn misorder(self, kind: u8, tests: &mut [Test]) {
        match self.slip {
            Some(Slip::RisingBeforeBasic) => tests.sort_by_key(|test| test.asks == Asks::Basic),
            Some(Slip::BasicBeforeRising) => tests.sort_by_key(|test| test.asks == Asks::Rising),
            Some(Slip::RuleDestinationFirst) if kind == 2 || kind == 3 => tests.swap(0, 1),
            Some(Slip::ConditionFirst) if kind == 2 => tests.sort_by_key(|test| test.asks != Asks::Byte),
            Some(Slip::SecondArgumentFirst) if kind == 4 => tests.swap(0, 1),
            Some(Slip::PredicateFirst) if kind == 4 => tests.sort_by_key(|test| test.asks != Asks::Byte),
            Some(Slip::PredicateLast) if kind == 4 => tests.sort_by_key(|test| test.asks == Asks::Byte),
            Some(Slip::LastListedFirst) if kind == 4 => tests[4..].reverse(),
            _ => {}
        }
    }
}

/// The places of a record's 2-byte fields from a place on.
pub fn words(record: &[u8], from: usize) -> impl Iterator<Item = usize> {
    (from..record.len().saturating_sub(1)).step_by(2)
}
