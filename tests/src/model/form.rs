//! A row of a text, and its record: the form that request [3] of document 02 gives.

use super::{Model, TextSlip};

/// What a word must be.
#[derive(Clone, Copy)]
enum Word {
    Member,
    Type,
    /// A class or an action.
    Number,
    Predicate,
    Condition,
}

/// The words behind a row's first: one of each, and then so many more of one sort.
struct Form {
    kind: u8,
    words: &'static [Word],
    more: Word,
    least: usize,
    most: usize,
}

impl Model {
    /// The record of a row. Else the row is outside the form, by its word of this number.
    pub fn record_of(self, row: &[u8]) -> Result<Vec<u8>, usize> {
        let words = self.words(row);
        let form = self.form(&words[0]).ok_or(0_usize)?;
        let most = form.words.len() + form.most;
        let mut record = vec![0, form.kind];
        for (n, word) in words[1..].iter().enumerate() {
            if n >= most {
                if self.slips_in_text(TextSlip::FurtherWordsPass) {
                    break;
                }
                return Err(n + 1);
            }
            let asks = form.words.get(n).copied().unwrap_or(form.more);
            record.extend(self.field(asks, word).ok_or(n + 1)?);
        }
        if words.len() - 1 < form.words.len() + form.least {
            return Err(words.len() - 1);
        }
        if self.slips_in_text(TextSlip::FieldsSwapped) && record.len() > 5 {
            record[2..6].rotate_left(2);
        }
        record[0] = record.len() as u8;
        Ok(record)
    }

    /// The words of a row: what stands before, between and behind its spaces.
    fn words(self, row: &[u8]) -> Vec<Vec<u8>> {
        let mut row = row.to_vec();
        match self.text_slip {
            Some(TextSlip::TabPasses) => row.iter_mut().filter(|byte| **byte == b'\t').for_each(|byte| *byte = b' '),
            Some(TextSlip::UpperCasePasses) => row.make_ascii_lowercase(),
            Some(TextSlip::CarriageReturnPasses) if row.ends_with(b"\r") => row.truncate(row.len() - 1),
            Some(TextSlip::TrailingSpacePasses) if row.ends_with(b" ") => row.truncate(row.len() - 1),
            Some(TextSlip::LeadingSpacePasses) if row.starts_with(b" ") => drop(row.remove(0)),
            _ => {}
        }
        let mut words: Vec<Vec<u8>> = row.split(|&byte| byte == b' ').map(<[u8]>::to_vec).collect();
        if self.slips_in_text(TextSlip::DoubleSpacePasses) {
            let last = words.len() - 1;
            let mut n = 0..;
            words.retain(|word| n.next().is_some_and(|n| n == 0 || n == last) || !word.is_empty());
        }
        words
    }

    fn form(self, first: &[u8]) -> Option<Form> {
        use Word::{Condition, Member, Number, Predicate, Type};
        let (kind, words, more, least, most): (u8, &[Word], Word, usize, usize) = match first {
            b"group" => (1, &[], Member, 1, 64),
            b"allow" => (2, &[Type, Type, Number, Number, Condition], Type, 0, 0),
            b"trans" => (3, &[Type, Type, Number], Type, 0, 0),
            b"limit" => (4, &[Number, Number, Type, Type, Predicate], Type, 0, 16),
            _ => return None,
        };
        let (least, most) = match (kind, self.text_slip) {
            (1, Some(TextSlip::NoMembersPass)) => (0, most),
            (1, Some(TextSlip::MembersOver)) | (4, Some(TextSlip::ListOver)) => (least, most + 1),
            (1, Some(TextSlip::MembersUnder)) | (4, Some(TextSlip::ListUnder)) => (least, most - 1),
            (4, Some(TextSlip::ListWanted)) => (1, most),
            _ => (least, most),
        };
        Some(Form { kind, words, more, least, most })
    }

    /// The bytes of a word, if it is what is asked for.
    fn field(self, asks: Word, word: &[u8]) -> Option<Vec<u8>> {
        let in_two = |number: u64| vec![(number / 256) as u8, (number % 256) as u8];
        match (asks, word) {
            (Word::Condition, b"on") => Some(vec![u8::from(!self.slips_in_text(TextSlip::OnIsZero))]),
            (Word::Condition, b"off") => Some(vec![u8::from(self.slips_in_text(TextSlip::OffIsOne))]),
            (Word::Condition, _) if self.slips_in_text(TextSlip::SwitchesUnknown) => None,
            (Word::Condition, [b's', number @ ..]) => self.switch(number),
            (Word::Condition, [b'S', number @ ..]) if self.slips_in_text(TextSlip::SwitchUpperCasePasses) => {
                self.switch(number)
            }
            (Word::Condition, _) if self.slips_in_text(TextSlip::SwitchWithoutS) => self.switch(word),
            (Word::Condition, _) => None,
            (Word::Predicate, _) => {
                let greatest = self.greatest(255, TextSlip::PredicateOver, TextSlip::PredicateUnder);
                self.number(word, greatest).map(|number| vec![number as u8])
            }
            (Word::Number, _) => {
                self.number(word, self.greatest(65535, TextSlip::ClassOver, TextSlip::ClassUnder)).map(in_two)
            }
            (Word::Member, [b'g', ..]) if !self.slips_in_text(TextSlip::GroupIsMember) => None,
            (Word::Member | Word::Type, [b'g', number @ ..]) => {
                let number =
                    if number.is_empty() && self.slips_in_text(TextSlip::NoDigitsPass) { b"0" } else { number };
                let first = if self.slips_in_text(TextSlip::GroupAsBasic) { 0 } else { 32768 };
                let greatest = self.greatest(32767, TextSlip::GroupOver, TextSlip::GroupUnder);
                self.number(number, greatest).map(|number| in_two(first + number))
            }
            (Word::Member | Word::Type, _) => {
                self.number(word, self.greatest(32767, TextSlip::BasicOver, TextSlip::BasicUnder)).map(in_two)
            }
        }
    }

    /// The condition of a switch, given its number.
    fn switch(self, number: &[u8]) -> Option<Vec<u8>> {
        let first = match self.text_slip {
            Some(TextSlip::SwitchOneLower) => 1,
            Some(TextSlip::SwitchOneHigher) => 3,
            _ => 2,
        };
        let greatest = self.greatest(31, TextSlip::SwitchOver, TextSlip::SwitchUnder);
        self.number(self.switch_digits(number), greatest).map(|number| vec![first + number as u8])
    }

    fn greatest(self, greatest: u64, over: TextSlip, under: TextSlip) -> u64 {
        greatest + u64::from(self.slips_in_text(over)) - u64::from(self.slips_in_text(under))
    }

    /// A decimal number without leading zeros, up to the greatest.
    fn number(self, word: &[u8], greatest: u64) -> Option<u64> {
        let digits = match word {
            [b'+', digits @ ..] if self.slips_in_text(TextSlip::PlusPasses) => digits,
            _ => word,
        };
        let leading_zero = digits.len() > 1 && digits[0] == b'0' && !self.slips_in_text(TextSlip::LeadingZeroPasses);
        if digits.is_empty() || leading_zero || !digits.iter().all(u8::is_ascii_digit) {
            return None;
        }
        let wraps = self.slips_in_text(TextSlip::NumbersWrap);
        let number = digits.iter().fold(0_u64, |number, digit| {
            let longer = number.saturating_mul(10).saturating_add(u64::from(digit - b'0'));
            if wraps {
                longer % (1 << 32)
            } else {
                longer
            }
        });
        (number <= greatest).then_some(number)
    }
}
