//! Which images are well formed: causes 1 to 7, in their order. `twins` has the last cause of an image, 19.

use super::bytes::{count_place, number, Records, HEADER};
use super::{refusal, Model, Slip, TwinSlip};
use mungaite::{Refusal, Section};

impl Model {
    /// The records of an image, be there twins among its groups or not, or the first of the causes 1 to 7 that applies
    /// to it.
    pub fn read_old(self, image: &[u8]) -> Result<Records, Refusal> {
        if self.slips(Slip::CountsBeforeLength) && image.len() >= HEADER {
            self.counts(image)?;
        }
        let leading = self.leading_image(image)?;
        if leading.len() != image.len() {
            return if self.slips(Slip::LongerSlicePasses) { self.read_old(leading) } else { Err(refusal(3, 0)) };
        }
        self.counts(image)?;
        if self.slips(Slip::FieldsAfterRecords) {
            self.records(image, false)?;
        }
        self.records(image, true)
    }

    /// The image that some bytes start with, up to its length field: causes 1 to 3 as adding and the program have them.
    pub fn leading_image(self, bytes: &[u8]) -> Result<&[u8], Refusal> {
        let length = if bytes.len() < HEADER { 0 } else { usize::from(number(bytes, 1)) };
        let wrong_version = bytes.first().is_some_and(|&version| version != 1) && !self.slips(Slip::AnyVersion);
        let mut causes = [(1, bytes.len() < HEADER), (2, wrong_version), (3, length < HEADER || length > bytes.len())];
        match self.slip {
            Some(Slip::VersionBeforeSize) => causes.swap(0, 1),
            Some(Slip::LengthBeforeVersion) => causes.swap(1, 2),
            _ => {}
        }
        match causes.into_iter().find(|(_, applies)| *applies) {
            Some((cause, _)) => Err(refusal(cause, 0)),
            None => Ok(&bytes[..length]),
        }
    }

    fn counts(self, image: &[u8]) -> Result<(), Refusal> {
        let mut sections = Section::ALL;
        if self.slips(Slip::LastCountFirst) {
            sections.reverse();
        }
        for section in sections {
            let place = count_place(section);
            if usize::from(number(image, place)) > self.limit(section) {
                return Err(refusal(4, place));
            }
        }
        Ok(())
    }

    /// The most records that a section may have.
    pub fn limit(self, section: Section) -> usize {
        let limit = match section {
            Section::Groups => 256,
            Section::Rules => 1024,
            Section::Constraints => 256,
        };
        if self.slips(Slip::LimitReached(section)) {
            limit - 1
        } else if self.slips(Slip::LimitPassed(section)) {
            limit + 1
        } else {
            limit
        }
    }

    fn records(self, image: &[u8], look_at_fields: bool) -> Result<Records, Refusal> {
        let groups = number(image, count_place(Section::Groups));
        let mut records = Records::default();
        let mut place = HEADER;
        for section in Section::ALL {
            if self.slips(Slip::FieldsAfterSection) {
                self.framed(section, image, place)?;
            }
            for _ in 0..number(image, count_place(section)) {
                let bad_place = if self.slips(Slip::RecordPlaceOff) { place + 1 } else { place };
                if self.slips(Slip::FieldBeforeShape) && self.bad_source(section, &image[place..], groups) {
                    return Err(refusal(6, place + 2));
                }
                let record = self.first_record(section, &image[place..]).ok_or(refusal(5, bad_place))?;
                if look_at_fields {
                    self.fields(record, groups).map_err(|at| refusal(6, place + at))?;
                }
                records.push(section_of(record[1]).unwrap_or(section), record);
                place += record.len();
                self.twins_early(TwinSlip::BeforeLaterGroups, &records)?;
                if self.slips(Slip::CheckIn15Bits) {
                    place %= 32_768;
                }
            }
            self.twins_early(TwinSlip::BeforeLaterSections, &records)?;
        }
        self.twins_early(TwinSlip::BeforeTrailing, &records)?;
        if place < image.len() && !self.slips(Slip::TrailingPasses) {
            return Err(refusal(7, if self.slips(Slip::LastTrailingNamed) { image.len() - 1 } else { place }));
        }
        Ok(records)
    }

    /// A section's records from a place on, without a look at their fields.
    fn framed(self, section: Section, image: &[u8], mut place: usize) -> Result<(), Refusal> {
        for _ in 0..number(image, count_place(section)) {
            place += self.first_record(section, &image[place..]).ok_or(refusal(5, place))?.len();
        }
        Ok(())
    }

    /// Whether a rule, be it well shaped or not, has a bad source.
    fn bad_source(self, section: Section, rest: &[u8], groups: u16) -> bool {
        section == Section::Rules && rest.len() >= 4 && !self.is_type(number(rest, 2), groups)
    }

    /// The record that the rest of an image starts with, if it ends within the image and its kind and length are right.
    fn first_record(self, section: Section, rest: &[u8]) -> Option<&[u8]> {
        let length = usize::from(*rest.first()?);
        let kind = *rest.get(1)?;
        let record = rest.get(..length)?;
        let suits = section_of(kind) == Some(section) || self.slips(Slip::KindOfAnySection);
        (suits && self.length_suits(kind, length)).then_some(record)
    }

    /// Whether a kind of record may have this length.
    pub fn length_suits(self, kind: u8, length: usize) -> bool {
        let more = match self.slip {
            Some(Slip::LengthOver) => 2,
            Some(Slip::LengthAtLimit) => -2,
            _ => 0,
        };
        let up_to = |most: usize| most.saturating_add_signed(more);
        let least = if self.slips(Slip::EmptyGroupPasses) { 2 } else { 4 };
        let any = self.slips(Slip::HalfFieldPasses);
        match kind {
            1 => (least..=up_to(130)).contains(&length) && (length.is_multiple_of(2) || any),
            2 => length == 11,
            3 => length == 8 || self.slips(Slip::LongTransitionPasses) && length == 11,
            4 => (11..=up_to(43)).contains(&length) && (!length.is_multiple_of(2) || any),
            _ => false,
        }
    }
}

/// The section that a kind of record belongs to.
pub fn section_of(kind: u8) -> Option<Section> {
    match kind {
        1 => Some(Section::Groups),
        2 | 3 => Some(Section::Rules),
        4 => Some(Section::Constraints),
        _ => None,
    }
}
