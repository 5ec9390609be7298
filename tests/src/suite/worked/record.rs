//! Records, by their places in the image.

use super::permit::longest_with;
use super::{both, no};
use crate::compare::{equal, hex, Outcome, Pair};
use crate::sample::{EMPTY, SAMPLE};
use mungaite::{Refusal, Section};
use std::ops::Range;

type Row = (&'static [u8], Section, u16, Result<Range<usize>, Refusal>);

/// An image, a section, a record's number, and where the record stands.
pub const ROWS: &[Row] = &[
    (&SAMPLE, Section::Groups, 0, Ok(9..15)),
    (&SAMPLE, Section::Groups, 1, no(14, 0)),
    (&SAMPLE, Section::Rules, 0, Ok(15..26)),
    (&SAMPLE, Section::Rules, 1, Ok(26..37)),
    (&SAMPLE, Section::Rules, 2, Ok(37..45)),
    (&SAMPLE, Section::Rules, 3, Ok(45..56)),
    (&SAMPLE, Section::Rules, 4, no(14, 0)),
    (&SAMPLE, Section::Constraints, 0, Ok(56..69)),
    (&SAMPLE, Section::Constraints, 1, Ok(69..80)),
    (&SAMPLE, Section::Constraints, 2, no(14, 0)),
    (&SAMPLE, Section::Constraints, 256, no(14, 0)),
    (&SAMPLE, Section::Constraints, 65535, no(14, 0)),
    (&EMPTY, Section::Groups, 0, no(14, 0)),
    (&EMPTY, Section::Rules, 0, no(14, 0)),
    (&EMPTY, Section::Constraints, 0, no(14, 0)),
    // The image's causes come first, of a record that there is and of one that there is not.
    (&[], Section::Groups, 0, no(1, 0)),
    (&[2, 0, 9, 0, 0, 0, 0, 0, 0], Section::Groups, 0, no(2, 0)),
    (SAMPLE.split_at(79).0, Section::Groups, 0, no(3, 0)),
    (SAMPLE.split_at(79).0, Section::Groups, 1, no(3, 0)),
    (&[1, 0, 9, 1, 1, 0, 0, 0, 0], Section::Rules, 0, no(4, 3)),
    (&[1, 0, 9, 0, 1, 0, 0, 0, 0], Section::Rules, 0, no(5, 9)),
    (&[1, 0, 13, 0, 1, 0, 0, 0, 0, 4, 1, 4, 0], Section::Groups, 0, no(6, 11)),
    (&[1, 0, 13, 0, 1, 0, 0, 0, 0, 4, 1, 4, 0], Section::Rules, 0, no(6, 11)),
    (&[1, 0, 10, 0, 0, 0, 0, 0, 0, 0], Section::Constraints, 0, no(7, 9)),
];

pub fn run(pair: &Pair, case: u64) -> Outcome {
    let (image, section, n, expected) = ROWS[case as usize].clone();
    both(pair, &format!("{section:?} {n} of {}", hex(image)), expected, |subject| subject.record(image, section, n))
}

/// The longest image: each section's first place, the length of its records, and how many they are.
pub const LONGEST: &[(Section, usize, usize, u16)] =
    &[(Section::Groups, 9, 130, 256), (Section::Rules, 33_289, 11, 1024), (Section::Constraints, 44_553, 43, 256)];

/// Each of its records, and the number past the last.
pub fn longest(pair: &Pair, case: u64) -> Outcome {
    let image = longest_with(0, &[1]);
    let (section, first, length, count) = LONGEST[case as usize];
    for n in 0..=count {
        let place = first + length * usize::from(n);
        let expected = if n < count { Ok(place..place + length) } else { no(14, 0) };
        let what = format!("{section:?} {n} of the longest image");
        both(pair, &what, expected, |subject| subject.record(&image, section, n))?;
    }
    Ok(())
}

/// A section above 2 has no record: 14, after the image's own causes. Only the C function can be asked for one.
pub fn no_section(_: &Pair, case: u64) -> Outcome {
    let section = [3, 4, 255, 256, 32768, 65535][case as usize];
    let ask = |image: &[u8]| {
        // SAFETY: the pointer and the length are those of one slice.
        unsafe { mungaite::raw::mungaite_record(section, 0, image.as_ptr(), image.len()) }
    };
    equal("record", ask(&SAMPLE), 0x0000_0002_000E_0000, || format!("section {section}"))?;
    equal("record", ask(&SAMPLE[..79]), 0x0000_0002_0003_0000, || format!("section {section}, last byte cut"))
}
