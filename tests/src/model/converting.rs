//! An old image without its twins, request [7] of document 02: the lowest of each set of twins stays, the others go,
//! later groups move down, and references follow.

use super::bytes::Records;
use super::policy::Set;
use super::{refusal, Model, TwinSlip};
use mungaite::{Refusal, Section, LARGEST};

impl Model {
    /// The length of the image without twins that is written to a buffer: causes 1 to 7, then 13.
    pub fn converted(self, image: &[u8], buffer: &mut [u8]) -> Result<usize, Refusal> {
        if self.slips_on_twins(TwinSlip::ShortFirst) && buffer.len() < 9 {
            return Err(refusal(13, 0));
        }
        let new = match self.old_records(image) {
            Ok(old) => self.without_twins(image, &old),
            Err(refused) => {
                if self.slips_on_twins(TwinSlip::RefusedWritten) {
                    buffer.iter_mut().take(1).for_each(|byte| *byte = !*byte);
                }
                return Err(refused);
            }
        };
        let wanted = match self.twin_slip {
            Some(TwinSlip::OldMeasured) => image.len(),
            Some(TwinSlip::ExactShort) => new.len() + 1,
            Some(TwinSlip::ShortFits) => new.len() - 1,
            _ => new.len(),
        };
        let fits = new.len().min(buffer.len());
        if buffer.len() < wanted {
            if self.slips_on_twins(TwinSlip::ShortWritten) {
                buffer.copy_from_slice(&new[..fits]);
            }
            return Err(refusal(13, 0));
        }
        match self.twin_slip {
            Some(TwinSlip::OldLeft) => buffer.iter_mut().zip(image).for_each(|(byte, old)| *byte = *old),
            Some(TwinSlip::RestCleared) => buffer[fits..].fill(0),
            _ => {}
        }
        buffer[..fits].copy_from_slice(&new[..fits]);
        Ok(if self.slips_on_twins(TwinSlip::OldAnswered) { image.len() } else { new.len() })
    }

    /// What the program `convert` writes: the new image, or a line.
    pub fn convert_output(self, input: &[u8]) -> Result<Vec<u8>, String> {
        let image = match self.slips_on_twins(TwinSlip::ProgramTakesFront) {
            true => self.leading_image(input).unwrap_or(input),
            false => input,
        };
        let mut buffer = vec![0; LARGEST];
        let checked = if self.slips_on_twins(TwinSlip::ProgramChecks) { self.read(image).map(drop) } else { Ok(()) };
        match checked.and_then(|()| self.converted(image, &mut buffer)) {
            Ok(length) => Ok(buffer[..length].to_vec()),
            Err(_) if self.slips_on_twins(TwinSlip::ProgramWritesOld) => Ok(input.to_vec()),
            Err(Refusal { number, place }) if self.slips_on_twins(TwinSlip::ProgramPrintsRow) => {
                Err(format!("R {number} {place} 1\n"))
            }
            Err(Refusal { number, place }) => Err(format!("R {number} {place}\n")),
        }
    }

    /// The records of an image that the converter takes, twins or not.
    fn old_records(self, image: &[u8]) -> Result<Records, Refusal> {
        match self.twin_slip {
            Some(TwinSlip::ConvertRefusesTwins) => self.read(image),
            Some(TwinSlip::FrontTaken) => self.read_old(self.leading_image(image)?),
            _ => self.read_old(image),
        }
    }

    /// The new image.
    fn without_twins(self, image: &[u8], old: &Records) -> Vec<u8> {
        let (groups, members) = (old.of(Section::Groups), old.members());
        let stays = self.staying(&members);
        let moved = self.moved(&members, &stays);
        let mut kept: Vec<&Vec<u8>> = (0..groups.len()).filter(|&n| stays[n] == n).map(|n| &groups[n]).collect();
        match self.twin_slip {
            Some(TwinSlip::GroupsSorted) => kept.sort(),
            Some(TwinSlip::OneMemberGoes) => kept.retain(|group| group.len() > 4),
            _ => {}
        }
        let mut new = Records::default();
        kept.into_iter().for_each(|group| new.push(Section::Groups, group));
        for section in [Section::Rules, Section::Constraints] {
            for record in old.of(section) {
                let record = self.followed(record, &moved);
                let goes = match section {
                    Section::Rules => self.slips_on_twins(TwinSlip::EqualRulesGo),
                    _ => self.slips_on_twins(TwinSlip::EqualConstraintsGo),
                };
                if !goes || !new.of(section).contains(&record) {
                    new.push(section, &record);
                }
            }
        }
        let mut bytes = new.image();
        match self.twin_slip {
            Some(TwinSlip::LengthKept) => bytes[1..3].copy_from_slice(&image[1..3]),
            Some(TwinSlip::CountKept) => bytes[3..5].copy_from_slice(&image[3..5]),
            _ => {}
        }
        bytes
    }

    /// Of each group the one that stays for it: the lowest of its twins.
    fn staying(self, groups: &[Set]) -> Vec<usize> {
        let mut stays: Vec<usize> = Vec::new();
        for n in 0..groups.len() {
            let twin = match self.twin_slip {
                Some(TwinSlip::HighestStays) => {
                    (n..groups.len()).rev().find(|&other| self.twins(&groups[n], &groups[other]))
                }
                Some(TwinSlip::OneGoes) => {
                    self.earlier_twin(groups, n).filter(|twin| !stays[twin + 1..].contains(twin))
                }
                _ => self.earlier_twin(groups, n).map(|twin| stays[twin]),
            };
            stays.push(twin.unwrap_or(n));
        }
        stays
    }

    /// The type field that each group has afterwards: that of the group that stays for it, which moves down by as many
    /// as
    /// went below it.
    fn moved(self, groups: &[Set], stays: &[usize]) -> Vec<u16> {
        let goes = |n: &usize| stays[*n] != *n || self.slips_on_twins(TwinSlip::OneMemberGoes) && groups[*n].len() == 1;
        let below = |n: usize| (0..n).filter(goes).count();
        let field = |n: usize| match self.twin_slip {
            Some(TwinSlip::NumbersKept) => stays[n],
            Some(TwinSlip::TwinsMovedOn) => n - below(n),
            Some(TwinSlip::TwinsKept) if goes(&n) => n,
            _ => stays[n] - below(stays[n]),
        };
        let one = |n: usize| if groups[n].len() == 1 { groups[n].first().copied() } else { None };
        (0..groups.len())
            .map(|n| match self.twin_slip {
                Some(TwinSlip::OneMemberGoes) => one(n).unwrap_or(mungaite::group(field(n) as u16)),
                _ => mungaite::group(field(n) as u16),
            })
            .collect()
    }
}
