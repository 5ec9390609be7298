//! What mistaken models make of a text.

use super::bytes::{number, Records, HEADER};
use super::text::Refused;
use super::{Model, TextSlip};
use crate::subject::TextRefusal;
use mungaite::{Refusal, EMPTY};

impl Model {
    /// The refusal of a row whose word of this number is outside the form: 18.
    pub fn outside(self, row: &[u8], word: usize, records: &Records, buffer: usize) -> Refused {
        let before_form = match self.text_slip {
            Some(TextSlip::WordNamed) => return (18, word_place(row, word)),
            Some(TextSlip::FieldBeforeForm) => 11,
            Some(TextSlip::TwinBeforeForm) => 20,
            Some(TextSlip::FullBeforeForm) => 12,
            Some(TextSlip::ShortBeforeForm) => 13,
            _ => return (18, 0),
        };
        let own = self.refused_before_form(row, word, records, buffer);
        (own.filter(|&number| number == before_form).unwrap_or(18), 0)
    }

    /// The cause, other than its form, for which a row would be refused if the words from one on were 0 or off.
    fn refused_before_form(self, row: &[u8], word: usize, records: &Records, buffer: usize) -> Option<u16> {
        let words: Vec<&[u8]> = row.split(|&byte| byte == b' ').take(word).collect();
        let zeros = (0..6).map(|more| [words.clone(), vec![&b"0"[..]; more]].concat());
        let completed = zeros.flat_map(|words| [words.clone(), [words, vec![&b"off"[..]]].concat()]);
        let record = completed.into_iter().find_map(|words| self.record_of(&words.join(&b' ')).ok())?;
        self.addable(records, &record, records.image_length(), buffer).err().map(|refused| refused.number)
    }

    /// The refusal of a row whose record cannot be added: its number, at the row's own place.
    pub fn misplaced(self, row: &[u8], record: &[u8], refused: Refusal) -> Refused {
        let place = usize::from(refused.place);
        match (refused.number, self.text_slip) {
            (11, slip @ Some(_)) if slip == taken_for_form(record, place) => (18, 0),
            (11, Some(TextSlip::FieldNamed)) => (11, word_place(row, place.div_ceil(2))),
            (11, Some(TextSlip::RecordPlaceKept)) => (11, place),
            (number, _) => (number, 0),
        }
    }

    /// The refusal of a text, by its first refused row.
    pub fn misnamed(self, refused: TextRefusal, rows: &[(usize, &[u8])]) -> TextRefusal {
        match (refused.number, self.text_slip) {
            (_, Some(TextSlip::FormsFirst)) | (13, Some(TextSlip::FormsBeforeShort)) => {
                let outside = rows.iter().find(|(_, row)| self.record_of(row).is_err());
                outside.map_or(refused, |&(place, _)| TextRefusal { number: 18, place })
            }
            (12, Some(TextSlip::FullAtZero)) | (13, Some(TextSlip::ShortAtZero)) | (20, Some(TextSlip::TwinAtZero)) => {
                TextRefusal { place: 0, ..refused }
            }
            (_, Some(TextSlip::PlaceNarrow)) => TextRefusal { place: refused.place % 65536, ..refused },
            _ => refused,
        }
    }

    /// What is taken for the digits of a switch: all that stands behind its s.
    pub fn switch_digits(self, number: &[u8]) -> &[u8] {
        let front = |passes: fn(&u8) -> bool| number.iter().take_while(|byte| passes(byte)).count();
        match self.text_slip {
            Some(TextSlip::SwitchWithoutNumber) if number.is_empty() => b"0",
            Some(TextSlip::SwitchLeadingZeroPasses) => {
                &number[front(|byte| *byte == b'0').min(number.len().saturating_sub(1))..]
            }
            Some(TextSlip::SwitchTailPasses) => &number[..front(u8::is_ascii_digit)],
            _ => number,
        }
    }

    /// Writes an image to the front of a buffer. Where a row was refused, the image is that of the rows before it.
    pub fn write(self, image: &[u8], buffer: &mut [u8], refused: Option<&[u8]>) {
        let (front, rest) = buffer.split_at_mut(image.len());
        match (self.text_slip, refused) {
            (Some(TextSlip::RefusalRestores), Some(_)) => return,
            (Some(TextSlip::RefusalEmpties), Some(_)) => return front[..HEADER].copy_from_slice(&EMPTY),
            (Some(TextSlip::RefusedRowLeft), Some(row)) => {
                let left = self.record_of(row).unwrap_or_default();
                rest.iter_mut().zip(left).for_each(|(byte, left)| *byte = left);
            }
            (Some(TextSlip::RestCleared), _) | (Some(TextSlip::RestClearedRefused), Some(_)) => rest.fill(0),
            _ => {}
        }
        front.copy_from_slice(image);
    }
}

/// The place in a row of its word of a number.
fn word_place(row: &[u8], word: usize) -> usize {
    row.split(|&byte| byte == b' ').take(word).map(|word| word.len() + 1).sum()
}

/// The mistake that takes a record's field that breaks its rule for one outside the form. No row within the form has a
/// bad condition.
fn taken_for_form(record: &[u8], place: usize) -> Option<TextSlip> {
    Some(match (record[1], place) {
        (2, 10) => return None,
        (4, 10) if record[10] > 3 => TextSlip::PredicateIsForm,
        (4, 10) => TextSlip::ListIsForm,
        (1, _) if number(record, place) < 1024 => TextSlip::RisingIsForm,
        _ if number(record, place) < 32768 => TextSlip::TypeIsForm,
        _ => TextSlip::GroupIsForm,
    })
}
