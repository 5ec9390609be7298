//! Many queries at once, with the causes 16 and 17: request [1] of document 02.

use super::twin_slip::Call;
use super::{refusal, Model, Slip, TwinSlip};
use crate::subject::Answer;
use mungaite::{Decision, Query, Refusal, Run};

impl Model {
    /// Each row's answer in its slot, and whether every row is Permitted.
    pub fn answer_rows(self, image: &[u8], queries: &[Query], answers: &mut [Answer]) -> Result<Run, Refusal> {
        if let Err(refused) = self.takes(image, queries.len(), answers.len()) {
            match self.slip {
                Some(Slip::RefusedRunWrites) => answers.iter_mut().take(1).for_each(|slot| *slot = Err(refused)),
                Some(Slip::ImageRefusalInSlots) if refused.number < 8 => answers.fill(Err(refused)),
                _ => {}
            }
            return Err(refused);
        }
        let answered = self.each_row(image, queries);
        if let (true, Some(Err(refused))) = (self.slips(Slip::RefusedRowRefuses), answered.iter().find(|a| a.is_err()))
        {
            return Err(*refused);
        }
        let answered = &answered[..self.rows_reached(&answered)];
        for (slot, answer) in answers.iter_mut().zip(answered) {
            *slot = *answer;
        }
        let unfit: Vec<usize> = (0..answered.len()).filter(|&row| !self.fits(answered[row])).collect();
        let named = if self.slips(Slip::LastUnfitRow) { unfit.last() } else { unfit.first() };
        Ok(match named {
            None => Run::Fit,
            Some(row) => Run::Unfit { row: row + usize::from(self.slips(Slip::RowsFromOne)) },
        })
    }

    /// The image's causes, then 16, then 17.
    fn takes(self, image: &[u8], rows: usize, slots: usize) -> Result<(), Refusal> {
        let least = if self.slips(Slip::NoRowsPass) { 0 } else { 1 };
        let most = match self.slip {
            Some(Slip::RowLimitPassed) => 65,
            Some(Slip::RowLimitReached) => 63,
            _ => 64,
        };
        let other_length = match self.slip {
            Some(Slip::ShortListPasses) => slots > rows,
            Some(Slip::LongListPasses) => slots < rows,
            _ => slots != rows,
        };
        let row_count = (rows < least || rows > most).then_some(refusal(16, 0));
        let other_length = other_length.then_some(refusal(17, 0));
        let mut causes = [self.read_for(Call::Run, image).err(), row_count, other_length];
        match self.slip {
            Some(Slip::RowCountBeforeImage) => causes.swap(0, 1),
            Some(Slip::ListBeforeImage) => causes.rotate_right(1),
            Some(Slip::ListBeforeRowCount) => causes.swap(1, 2),
            _ => {}
        }
        let late = match self.twin_slip {
            Some(TwinSlip::AfterRows) => row_count,
            Some(TwinSlip::AfterList) => other_length,
            _ => None,
        };
        if late.is_some() {
            causes = [self.read_old(image).err(), late, causes[0]];
        }
        causes.into_iter().flatten().next().map_or(Ok(()), Err)
    }

    /// How many rows are answered: all of them.
    fn rows_reached(self, answered: &[Answer]) -> usize {
        let past = |ends: fn(&Answer) -> bool| answered.iter().position(ends).map_or(answered.len(), |row| row + 1);
        match self.slip {
            Some(Slip::StopsAtUnfitRow) => past(|answer| !matches!(answer, Ok(Decision::Permitted { .. }))),
            Some(Slip::StopsAtRefusedRow) => past(Result::is_err),
            Some(Slip::LastRowSkipped) => answered.len() - 1,
            _ => answered.len(),
        }
    }

    /// Whether a row with this answer is Permitted.
    fn fits(self, answer: Answer) -> bool {
        match answer {
            Ok(Decision::Permitted { .. }) => true,
            Ok(Decision::UnKnown { .. }) => self.slips(Slip::UnKnownRowFits),
            Ok(Decision::NotPermitted { .. }) => false,
            Err(_) => self.slips(Slip::RefusedRowFits),
        }
    }
}
