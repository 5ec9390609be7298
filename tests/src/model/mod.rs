//! A model of document 01, with requests [1] to [7] of document 02, written without a look at the engine's code: sets
//! of numbers, plain structs, nothing made fast.
//!
//! - `bytes`: numbers in bytes; an image as three lists of records
//! - `check`: which images are well formed, and the first cause where one is not
//! - `twins`: which groups are twins, and images without them
//! - `fields`: the rules of a record's fields
//! - `policy`: a well-formed image with every type as its set
//! - `condition`: which rules are on
//! - `predicate`: the four predicates
//! - `decide`: cover, and the decision
//! - `nearest`: how near a denied query came
//! - `rows`: many queries at once
//! - `adding`: one more record in a buffer
//! - `text`: a policy from a text
//! - `form`: a row of a text, and its record
//! - `converting`, `references`: an old image without its twins, and what named them
//! - `calls`: the engine's calls
//! - `program`: what the program `permit` prints
//! - `slip`, `text_slip`, `twin_slip`: mistakes that the model can be told to make; `mistaken_rows`, `mistaken_text`:
//!   what some do

mod adding;
mod bytes;
mod calls;
mod check;
mod condition;
mod converting;
mod decide;
mod fields;
mod form;
mod mistaken_rows;
mod mistaken_text;
mod nearest;
mod policy;
mod predicate;
mod program;
mod references;
mod rows;
mod slip;
mod text;
mod text_slip;
mod twin_slip;
mod twins;

pub use slip::{Mistake, Predicate, Reader, Slip};
pub use text_slip::TextSlip;
pub use twin_slip::{Field, TwinSlip};

use mungaite::Refusal;

/// The documents, or the documents with one mistake.
#[derive(Clone, Copy)]
pub struct Model {
    slip: Option<Slip>,
    text_slip: Option<TextSlip>,
    twin_slip: Option<TwinSlip>,
}

impl Model {
    /// The documents as they are written.
    pub const RIGHT: Model = Model { slip: None, text_slip: None, twin_slip: None };

    /// The model that makes one mistake.
    pub fn with(slip: Slip) -> Model {
        Model { slip: Some(slip), ..Model::RIGHT }
    }

    /// The model that makes one mistake in building a policy from a text.
    pub fn with_text(slip: TextSlip) -> Model {
        Model { text_slip: Some(slip), ..Model::RIGHT }
    }

    /// The model that makes one mistake about twins or in converting.
    pub fn with_twins(slip: TwinSlip) -> Model {
        Model { twin_slip: Some(slip), ..Model::RIGHT }
    }

    fn slips(self, slip: Slip) -> bool {
        self.slip == Some(slip)
    }

    fn slips_in_text(self, slip: TextSlip) -> bool {
        self.text_slip == Some(slip)
    }

    fn slips_on_twins(self, slip: TwinSlip) -> bool {
        self.twin_slip == Some(slip)
    }
}

fn refusal(number: u16, place: usize) -> Refusal {
    let place = u16::try_from(place).expect("a place is within an image");
    Refusal { number, place }
}
