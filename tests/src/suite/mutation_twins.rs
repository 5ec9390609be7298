//! The tests of twins have teeth: a worked row notices each mistake about twins and in converting, and so do the
//! generated
//! images.

use super::mutation::of_mistakes;
use super::{converts, differential, old, texts, worked};
use crate::model::{Field, TwinSlip};
use crate::runner::{Cases, Whole};

/// Mistakes that the tests of what the engine makes of old images must notice, with the mistaken model in its place.
const PROPERTIES: [(Cases, TwinSlip); 30] = [
    (old::ONCE, TwinSlip::ByLength),
    (old::ONCE, TwinSlip::ByFirstMember),
    (old::ONCE, TwinSlip::LastMemberIgnored),
    (old::ONCE, TwinSlip::ByFront),
    (old::ONCE, TwinSlip::NeverTwins),
    (old::ONCE, TwinSlip::LastGroupIgnored),
    (old::ONCE, TwinSlip::NeighboursOnly),
    (old::ONCE, TwinSlip::HighestStays),
    (old::ONCE, TwinSlip::OneGoes),
    (old::ONCE, TwinSlip::LengthKept),
    (old::ONCE, TwinSlip::CountKept),
    (old::ONCE, TwinSlip::GroupsSorted),
    (old::ONCE, TwinSlip::EqualRulesGo),
    (old::ONCE, TwinSlip::EqualListedGo),
    (old::ONCE, TwinSlip::OldLeft),
    (old::ONCE, TwinSlip::RestCleared),
    (old::ONCE, TwinSlip::OldAnswered),
    (old::ONCE, TwinSlip::ExactShort),
    (old::ONCE, TwinSlip::ConvertRefusesTwins),
    (old::ANSWERS, TwinSlip::NumbersKept),
    (old::ANSWERS, TwinSlip::TwinsMovedOn),
    (old::ANSWERS, TwinSlip::TwinsKept),
    (old::ANSWERS, TwinSlip::EqualRulesGo),
    (old::ANSWERS, TwinSlip::EqualConstraintsGo),
    (old::ANSWERS, TwinSlip::NotFollowed(Field::Source)),
    (old::ANSWERS, TwinSlip::NotFollowed(Field::Destination)),
    (old::ANSWERS, TwinSlip::NotFollowed(Field::Transition)),
    (old::ANSWERS, TwinSlip::NotFollowed(Field::First)),
    (old::ANSWERS, TwinSlip::NotFollowed(Field::Second)),
    (old::ANSWERS, TwinSlip::NotFollowed(Field::Listed)),
];

pub fn tests() -> Vec<Whole> {
    let tables = [worked::TWINS, worked::TEXTS, worked::TESTS].concat();
    let generated = [converts::TESTS, &differential(), texts::TESTS].concat();
    of_mistakes("twins/", &tables, &generated, &PROPERTIES)
}
