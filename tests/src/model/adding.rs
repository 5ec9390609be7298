//! Adding a record, with the causes 10 to 13 and 20.

use super::bytes::{number, Records};
use super::check::section_of;
use super::twin_slip::Call;
use super::{refusal, Model, Slip, TwinSlip};
use mungaite::{Refusal, Section};

impl Model {
    /// The number of the record that was added to the image that a buffer starts with.
    pub fn added(self, buffer: &mut [u8], record: &[u8]) -> Result<u16, Refusal> {
        let lent = match record.first() {
            Some(&length) if self.slips(Slip::LentLengthIgnored) => record.len().min(usize::from(length)),
            _ => record.len(),
        };
        let record = &record[..lent];
        if self.slips(Slip::AddedBeforeImage) {
            self.shaped(record)?;
        }
        let image = if self.slips(Slip::ImageToBufferEnd) { &*buffer } else { self.leading_image(buffer)? };
        let old_length = image.len();
        if self.slips_on_twins(TwinSlip::AfterAdded) {
            self.addable(&self.read_old(image)?, record, old_length, buffer.len())?;
        }
        let mut records = self.read_for(Call::Add, image)?;
        let addable = self.addable(&records, record, old_length, buffer.len());
        if self.slips(Slip::RefusedAddWrites) && addable.is_err() {
            buffer[2] ^= 1;
        }
        if addable == Err(refusal(20, 0)) && self.slips_on_twins(TwinSlip::AddedAnswersTwin) {
            return Ok(self.twin_of_added(&records, record).unwrap_or(0) as u16);
        }
        let section = addable?;
        let n = records.of(section).len();
        let mut new = match self.slip {
            Some(Slip::AddedAtImageEnd) => added_at_end(&buffer[..old_length], section, record),
            Some(Slip::AddedFirst) => records.with_first(section, record).image(),
            _ => {
                records.push(section, record);
                records.image()
            }
        };
        match self.slip {
            Some(Slip::LengthFieldStays) => new[1..3].copy_from_slice(&buffer[1..3]),
            Some(Slip::CountStays) => new[3..9].copy_from_slice(&buffer[3..9]),
            Some(Slip::RestCleared) => buffer[new.len()..].fill(0),
            Some(Slip::RestMoved) => buffer.copy_within(old_length..buffer.len() - record.len(), new.len()),
            _ => {}
        }
        buffer[..new.len()].copy_from_slice(&new);
        Ok(if self.slips(Slip::NumberAfterAdding) { n + 1 } else { n } as u16)
    }

    /// The section of a record that is to be added: cause 10.
    fn shaped(self, record: &[u8]) -> Result<Section, Refusal> {
        let kind = *record.get(1).ok_or(refusal(10, 0))?;
        let section = section_of(kind).ok_or(refusal(10, 0))?;
        if usize::from(record[0]) != record.len() || !self.length_suits(kind, record.len()) {
            return Err(refusal(10, 0));
        }
        Ok(section)
    }

    /// The section that a record may be added to: causes 10, 11, 20, 12 and 13.
    pub fn addable(self, old: &Records, record: &[u8], image: usize, buffer: usize) -> Result<Section, Refusal> {
        let section = self.shaped(record)?;
        let bad_field = self.fields(record, old.of(Section::Groups).len() as u16).err();
        let is_full = |section: Section| old.of(section).len() >= self.limit(section);
        let full = is_full(section) || self.slips(Slip::FullElsewhere) && Section::ALL.into_iter().any(is_full);
        let wanted = image + record.len() + usize::from(self.slips(Slip::ExactRoomShort));
        let twin = self.twin_of_added(old, record);
        let applies = |cause: &u16| match cause {
            11 => bad_field.is_some(),
            20 => twin.is_some(),
            12 => full,
            _ => buffer < wanted,
        };
        match self.causes_of_adding().into_iter().find(applies) {
            Some(11) => Err(refusal(11, self.added_place(old, section, bad_field.unwrap_or(0)))),
            Some(20) => Err(self.added_twin(old, twin.unwrap_or(0))),
            Some(cause) => Err(refusal(cause, 0)),
            None => Ok(section),
        }
    }

    /// The causes behind 10, in the order in which they come.
    fn causes_of_adding(self) -> [u16; 4] {
        match (self.slip, self.twin_slip) {
            (Some(Slip::FullBeforeField), _) => [12, 11, 20, 13],
            (Some(Slip::ShortBeforeFull), _) => [11, 20, 13, 12],
            (Some(Slip::ShortBeforeField), _) => [13, 11, 20, 12],
            (_, Some(TwinSlip::AddedBeforeField)) => [20, 11, 12, 13],
            (_, Some(TwinSlip::FullBeforeAdded)) => [11, 12, 20, 13],
            (_, Some(TwinSlip::ShortBeforeAdded)) => [11, 13, 20, 12],
            _ => [11, 20, 12, 13],
        }
    }

    /// The place that an added record's bad field is named by.
    fn added_place(self, old: &Records, section: Section, at: usize) -> usize {
        let up_to = Section::ALL.into_iter().filter(|other| *other <= section).flat_map(|other| old.of(other));
        if self.slips(Slip::FieldPlaceInImage) {
            9 + up_to.map(Vec::len).sum::<usize>() + at
        } else {
            at
        }
    }
}

/// What a mistaken adder writes: the record behind the whole image.
fn added_at_end(image: &[u8], section: Section, record: &[u8]) -> Vec<u8> {
    let mut new = [image, record].concat();
    let length = (new.len() as u16).to_be_bytes();
    new[1..3].copy_from_slice(&length);
    let place = 3 + 2 * section as usize;
    let count = (number(image, place) + 1).to_be_bytes();
    new[place..place + 2].copy_from_slice(&count);
    new
}
