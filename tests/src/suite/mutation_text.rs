//! The tests of texts have teeth: a worked row notices each mistake in building from a text, and so do the generated
//! texts.

use super::mutation::of_mistakes;
use super::{text_rows, texts, worked};
use crate::model::TextSlip;
use crate::runner::{Cases, Whole};

/// Mistakes that the tests of the engine's answers alone must notice, with the mistaken model in the engine's place.
const PROPERTIES: [(Cases, TextSlip); 14] = [
    (text_rows::TYPED, TextSlip::LastRowDropped),
    (text_rows::TYPED, TextSlip::OnIsZero),
    (text_rows::TYPED, TextSlip::GroupAsBasic),
    (text_rows::TYPED, TextSlip::MembersUnder),
    (text_rows::TYPED, TextSlip::ListUnder),
    (text_rows::TYPED, TextSlip::ClassUnder),
    (text_rows::ADDED, TextSlip::RestCleared),
    (text_rows::ADDED, TextSlip::FieldsSwapped),
    (text_rows::ROWS_BEFORE, TextSlip::RefusalRestores),
    (text_rows::ROWS_BEFORE, TextSlip::RefusalEmpties),
    (text_rows::ROWS_BEFORE, TextSlip::RefusalGoesOn),
    (text_rows::ROWS_BEFORE, TextSlip::RefusedRowLeft),
    (text_rows::ROWS_BEFORE, TextSlip::WordNamed),
    (text_rows::ROWS_BEFORE, TextSlip::ShortBufferWritten),
];

pub fn tests() -> Vec<Whole> {
    of_mistakes("text/", worked::TEXTS, texts::TESTS, &PROPERTIES)
}
