//! Policies as text, with the images that are to be built from them.

use super::largest::{every_other_a_group, largest};
use super::twins::one_differs;
use mungaite_tests::draft::Draft;
use mungaite_tests::sample::{EMPTY, SAMPLE, SAMPLE_TEXT};
use mungaite_tests::text::text_of;

pub struct Text {
    pub name: &'static str,
    pub rows: usize,
    pub text: Vec<u8>,
    pub image: Vec<u8>,
}

const EMPTY_ROWS: usize = 1_000_000;

pub fn all() -> [Text; 5] {
    [sample(), in_order(), backward(), alike(), empty_rows()]
}

fn sample() -> Text {
    Text { name: "sample", rows: 7, text: SAMPLE_TEXT.into(), image: SAMPLE.to_vec() }
}

/// The sections in their order, so that no record moves. Every other type is a group.
fn in_order() -> Text {
    let policy = largest(0..256, |n| every_other_a_group(n, |group| group));
    Text::new("largest, in the sections' order", &policy, policy.records())
}

/// The last section first, so that each rule moves all constraints and each group all rules too. All types are basic.
fn backward() -> Text {
    let policy = largest(0..256, |n| n % 1024);
    let records = policy.constraints.iter().chain(&policy.rules).chain(&policy.groups);
    Text::new("largest, limits first, groups last", &policy, records)
}

/// Groups that differ in one member, so that each is compared with those before for being a twin.
fn alike() -> Text {
    let mut policy = Draft::default();
    for group in 0..256 {
        policy.add_group(one_differs(group));
    }
    Text::new("256 groups, the 21st member differs", &policy, policy.records())
}

fn empty_rows() -> Text {
    let text = vec![b'\n'; EMPTY_ROWS];
    Text { name: "empty rows", rows: EMPTY_ROWS, text, image: EMPTY.to_vec() }
}

impl Text {
    /// The records of a policy as rows, in an order of theirs.
    fn new<'a>(name: &'static str, policy: &Draft, records: impl Iterator<Item = &'a Vec<u8>>) -> Text {
        let records: Vec<&Vec<u8>> = records.collect();
        Text { name, rows: records.len(), text: text_of(records), image: policy.image() }
    }
}

#[cfg(test)]
mod tests {
    use super::*;

    #[test]
    fn sizes_are_the_limits() {
        let sizes = all().map(|text| (text.rows, text.image.len()));
        assert_eq!(sizes, [(7, 80), (1536, 55_561), (1536, 55_561), (256, 33_289), (1_000_000, 9)]);
        for text in all() {
            assert_eq!(text.text.iter().filter(|byte| **byte == b'\n').count(), text.rows, "{}", text.name);
        }
    }

    #[test]
    fn texts_make_their_images() {
        let mut buffer = vec![0; mungaite::LARGEST];
        for text in all() {
            assert_eq!(hand_written::build(&text.text, &mut buffer), Ok(text.image.len()), "{}", text.name);
            assert_eq!(mungaite::build(&text.text, &mut buffer), Ok(text.image.as_slice()), "{}", text.name);
        }
    }
}
