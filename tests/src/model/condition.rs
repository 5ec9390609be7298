//! Which allow rules are on: request [6] of document 02.

use super::policy::{Allow, Request};
use super::slip::Reader;
use super::{Model, Slip};

impl Model {
    /// Whether an allow rule is on for a query, as one who asks reads it.
    pub fn is_on(self, reader: Reader, allow: &Allow, query: &Request) -> bool {
        let word = query.switches;
        match allow.condition {
            0 if self.slips(Slip::OffWraps) => self.switch_is_on(30, word),
            0 => false,
            1 if self.slips(Slip::OnWraps) => self.switch_is_on(31, word),
            1 => true,
            _ if self.slips_at(Slip::SwitchOn, reader) => true,
            _ if self.slips_at(Slip::SwitchOff, reader) => false,
            condition => self.switch_is_on(condition - 2, word),
        }
    }

    /// Whether the word divided by 2 as many times as the switch's number says, rounded down, is odd.
    fn switch_is_on(self, k: u8, word: u32) -> bool {
        let halved = |word: u32, times: u8| (0..times).fold(word, |word, _| word / 2);
        match self.slip {
            Some(Slip::SwitchAbove) => halved(word, k + 1) % 2 == 1,
            Some(Slip::SwitchBelow) if k == 0 => false,
            Some(Slip::SwitchBelow) => halved(word, k - 1) % 2 == 1,
            Some(Slip::SwitchesReversed) => halved(word, 31_u8.saturating_sub(k)) % 2 == 1,
            Some(Slip::SwitchAtZero) => word == 0 || halved(word, k) % 2 == 1,
            Some(Slip::SwitchInverted) => halved(word, k).is_multiple_of(2),
            Some(Slip::AnySwitch) => word != 0,
            Some(Slip::NotOdd) => halved(word, k) > 0,
            Some(Slip::LowHalfOnly) => halved(word % 65536, k) % 2 == 1,
            _ => halved(word, k) % 2 == 1,
        }
    }

    /// Whether this reader makes the mistake, alone or as all do.
    fn slips_at(self, slip: fn(Reader) -> Slip, reader: Reader) -> bool {
        self.slips(slip(reader)) || self.slips(slip(Reader::Each))
    }
}
