//! A policy from a text, and what the program says of one: request [3] of document 02.

use super::bytes::{number, Records, HEADER};
use super::check::section_of;
use super::{Model, TextSlip};
use crate::subject::TextRefusal;
use mungaite::{Section, EMPTY, LARGEST};

/// Why a row is refused: the cause's number, and a place in the row, which is 0 unless a mistake is made.
pub type Refused = (u16, usize);

impl Model {
    /// The length of the image built in a buffer: each row's record is added to the empty policy.
    pub fn built(self, text: &[u8], buffer: &mut [u8]) -> Result<usize, TextRefusal> {
        if buffer.len() < HEADER {
            return self.short(text, buffer);
        }
        let rows = self.rows(text);
        let mut records = Records::default();
        let mut refused = None;
        for &(place, row) in &rows {
            if let Err((number, within)) = self.add_row(row, &mut records, buffer.len()) {
                refused = refused.or(Some((TextRefusal { number, place: place + within }, row)));
                if !self.slips_in_text(TextSlip::RefusalGoesOn) {
                    break;
                }
            }
        }
        let image = records.image();
        self.write(&image, buffer, refused.map(|(_, row)| row));
        match refused {
            Some((refused, _)) => Err(self.misnamed(refused, &rows)),
            None => Ok(image.len()),
        }
    }

    /// What the program writes: the image, or a line.
    pub fn compiled(self, text: &[u8]) -> Result<Vec<u8>, String> {
        let mut buffer = vec![0; LARGEST];
        let TextRefusal { number, place } = match self.built(text, &mut buffer) {
            Ok(length) => return Ok(buffer[..length].to_vec()),
            Err(_) if self.slips_in_text(TextSlip::RefusedImageWritten) => return Ok(image_in(&buffer).to_vec()),
            Err(refused) => refused,
        };
        let mut before: Vec<&[u8]> = text[..place].split(|&byte| byte == b'\n').collect();
        if self.slips_in_text(TextSlip::EmptyRowsUncounted) {
            before.retain(|row| !row.is_empty());
            before.push(b"");
        }
        let row = before.len() - usize::from(self.slips_in_text(TextSlip::RowsFromZero));
        Err(match self.slips_in_text(TextSlip::RowBeforePlace) {
            true => format!("R {number} {row} {place}\n"),
            false => format!("R {number} {place} {row}\n"),
        })
    }

    /// The rows that are not empty, each with the place of its first byte.
    fn rows(self, text: &[u8]) -> Vec<(usize, &[u8])> {
        let mut rows = Vec::new();
        let mut place = 0;
        for row in text.split(|&byte| byte == b'\n') {
            let ended = place + row.len() < text.len();
            let skipped = match self.text_slip {
                Some(TextSlip::EmptyRowRefused) => row.is_empty() && !ended,
                Some(TextSlip::BlankRowSkipped) => row.iter().all(|&byte| byte == b' '),
                Some(TextSlip::LastRowDropped) => row.is_empty() || !ended,
                _ => row.is_empty(),
            };
            if !skipped {
                rows.push((place, row));
            }
            place += row.len() + 1;
        }
        if self.slips_in_text(TextSlip::GroupRowsFirst) {
            rows.sort_by_key(|(_, row)| !row.starts_with(b"group "));
        }
        rows
    }

    /// Adds a row's record: 18, then 11, 20, 12 and 13.
    fn add_row(self, row: &[u8], records: &mut Records, buffer: usize) -> Result<(), Refused> {
        let record = self.record_of(row).map_err(|word| self.outside(row, word, records, buffer))?;
        match self.addable(records, &record, records.image_length(), buffer) {
            Ok(section) => records.push(section, &record),
            Err(refused) if refused.number == 20 && self.slips_in_text(TextSlip::TwinRowSkipped) => {}
            Err(refused) => {
                if self.slips_in_text(TextSlip::RefusedRowAdded) && records.image_length() + record.len() <= buffer {
                    records.push(section_of(record[1]).unwrap_or(Section::Groups), &record);
                }
                return Err(self.misplaced(row, &record, refused));
            }
        }
        Ok(())
    }

    /// A buffer under 9 bytes: 13 at place 0, before any row is read.
    fn short(self, text: &[u8], buffer: &mut [u8]) -> Result<usize, TextRefusal> {
        match self.text_slip {
            Some(TextSlip::ShortBufferWritten) => buffer.copy_from_slice(&EMPTY[..buffer.len()]),
            Some(TextSlip::ShortBufferLate) => {
                return match self.rows(text).first() {
                    Some(&(place, row)) if self.record_of(row).is_err() => Err(TextRefusal { number: 18, place }),
                    Some(&(place, _)) => Err(TextRefusal { number: 13, place }),
                    None => Ok(HEADER),
                };
            }
            _ => {}
        }
        Err(TextRefusal { number: 13, place: 0 })
    }
}

/// The image that a buffer starts with.
pub fn image_in(buffer: &[u8]) -> &[u8] {
    &buffer[..usize::from(number(buffer, 1))]
}
