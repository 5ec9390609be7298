//! Texts in buffers that are short, full sections, and places far into a text.

use super::both;
use super::build::built;
use super::many::{lone_groups, lone_rows};
use crate::compare::{Outcome, Pair};
use crate::draft::{allow, constraint, group, transition, Draft};
use crate::sample::{EMPTY, SAMPLE, SAMPLE_TEXT};
use crate::subject::TextRefusal;
use crate::suite::texts::room;

pub type Row = (&'static str, fn() -> String, usize, Result<(), (u16, usize)>, fn() -> Vec<u8>);

/// What is built, the text, the buffer's length, the refusal and its place, the image afterwards.
#[rustfmt::skip]
pub const ROWS: &[Row] = &[
    // A buffer that holds the empty policy and no more.
    ("no text in 9 bytes", String::new, 9, Ok(()), empty),
    ("line feeds in 9 bytes", || "\n\n".into(), 9, Ok(()), empty),
    ("a group in 9 bytes", || "group 7".into(), 9, Err((13, 0)), empty),
    ("a group in 12 bytes", || "group 7\n".into(), 12, Err((13, 0)), empty),
    ("a group in 13 bytes", || "group 7\n".into(), 13, Ok(()), seven),
    ("a group behind empty rows, in 12 bytes", || "\n\n\ngroup 7\n".into(), 12, Err((13, 3)), empty),
    ("two groups in 16 bytes", || "group 7\ngroup 8\n".into(), 16, Err((13, 8)), seven),
    ("two groups in 16 bytes, no line feed", || "group 7\ngroup 8".into(), 16, Err((13, 8)), seven),
    ("two groups in 17 bytes", || "group 7\ngroup 8".into(), 17, Ok(()), || many(&[7, 8])),
    ("a rule in 23 bytes", || "group 7\nallow 1 2 3 4 on".into(), 23, Err((13, 8)), seven),
    ("a transition in 20 bytes", || "group 7\ntrans 1 2 3".into(), 20, Err((13, 8)), seven),
    ("a ban in 23 bytes", || "group 7\nlimit 1 2 3 4 0".into(), 23, Err((13, 8)), seven),
    ("a roster in 25 bytes", || "group 7\nlimit 1 2 3 4 2 5".into(), 25, Err((13, 8)), seven),
    ("a row that does not fit, and one that would", || "group 7\ngroup 1 2 3\ngroup 8\n".into(), 17, Err((13, 8)),
        seven),
    ("the sample in 79 bytes", || SAMPLE_TEXT.into(), 79, Err((13, 105)), before_the_last),
    ("the sample in 69 bytes", || SAMPLE_TEXT.into(), 69, Err((13, 105)), before_the_last),
    ("the sample in 80 bytes", || SAMPLE_TEXT.into(), 80, Ok(()), || SAMPLE.to_vec()),
    ("the sample and a group in 80 bytes", || format!("{SAMPLE_TEXT}group 7\n"), 80, Err((13, 123)),
        || SAMPLE.to_vec()),
    // Rows are judged one after the other, and 18 comes before a row's own 11, 12 and 13.
    ("member 1024 in 9 bytes", || "group 1024".into(), 9, Err((11, 0)), empty),
    ("a group as a member, in 9 bytes", || "group g0".into(), 9, Err((18, 0)), empty),
    ("a rule and a space, in 9 bytes", || "trans 1 2 3 ".into(), 9, Err((18, 0)), empty),
    ("a rule and a space, in 9 bytes, behind an empty row", || "\ntrans 1 2 3 \n".into(), 9, Err((18, 1)), empty),
    ("a short buffer, then a row outside the form", || "group 7\nGROUP 8\n".into(), 12, Err((13, 0)), empty),
    ("a row outside the form, in a full buffer", || "group 7\nGROUP 8\n".into(), 13, Err((18, 8)), seven),
    ("member 1024, then a row outside the form", || "group 7\ngroup 1024\nGROUP 8\n".into(), 40, Err((11, 8)), seven),
    ("a row outside the form, then member 1024", || "group 7\nGROUP 8\ngroup 1024\n".into(), 40, Err((18, 8)), seven),
    ("two rows outside the form", || "group 7\nGROUP 8\ntrans\n".into(), 40, Err((18, 8)), seven),
    ("a group that is defined later", || "group 7\ntrans g1 1 2\ngroup 8\n".into(), 40, Err((11, 8)), seven),
    ("a group that is defined behind the row", || "trans g0 1 2\ngroup 7\n".into(), 40, Err((11, 0)), empty),
    // Sections at their limits.
    ("256 groups", || lone_rows(256), 1033, Ok(()), groups),
    ("a 257th group", || lone_rows(257), 1038, Err((12, 2560)), groups),
    ("a 257th group, no room", || lone_rows(257), 1033, Err((12, 2560)), groups),
    ("a 257th group, 1024", || lone_rows(256) + "group 1024", 1038, Err((11, 2560)), groups),
    ("a 257th group, outside the form", || lone_rows(256) + "group 7 ", 1038, Err((18, 2560)), groups),
    ("a rule, where the groups are full", || lone_rows(256) + "trans g255 g0 3", 1041, Ok(()),
        groups_and_rule),
    ("group 256, where there are 256", || lone_rows(256) + "trans g256 g0 3", 1041, Err((11, 2560)), groups),
    ("1,024 rules", || "allow 1 2 3 4 on\n".repeat(1024), 11_273, Ok(()), rules),
    ("a 1,025th rule", || "allow 1 2 3 4 on\n".repeat(1025), 20_000, Err((12, 17_408)), rules),
    ("a transition as the 1,025th rule", || "allow 1 2 3 4 on\n".repeat(1024) + "\ntrans 1 2 3", 11_273,
        Err((12, 17_409)), rules),
    ("a 1,025th rule, outside the form", || "allow 1 2 3 4 on\n".repeat(1024) + "allow 1 2 3 4 ON", 20_000,
        Err((18, 17_408)), rules),
    ("256 limits", || "limit 1 2 3 4 0\n".repeat(256), 2825, Ok(()), limits),
    ("a 257th limit", || "limit 1 2 3 4 0\n".repeat(257), 3000, Err((12, 4096)), limits),
    ("a 257th limit, of predicate 4", || "limit 1 2 3 4 0\n".repeat(256) + "limit 1 2 3 4 4", 3000, Err((11, 4096)),
        limits),
    // Places that need more than 16 bits.
    ("18 at 65,535", || far(65_535) + "GROUP", 40, Err((18, 65_535)), empty),
    ("18 at 65,536", || far(65_536) + "GROUP", 40, Err((18, 65_536)), empty),
    ("11 at 70,008", || "group 7\n".to_string() + &far(70_000) + "group 1024", 40, Err((11, 70_008)), seven),
    ("13 at 131,072", || far(131_072) + "group 7", 9, Err((13, 131_072)), empty),
    ("12 at 102,560", || lone_rows(256) + &far(100_000) + "group 7", 1038, Err((12, 102_560)), groups),
    ("a group behind 200,000 empty rows", || far(200_000) + "group 7", 13, Ok(()), seven),
    ("a row of 70,000 bytes", || "group 7\n".to_string() + &"7".repeat(70_000), 40, Err((18, 8)), seven),
    ("a row of 70,000 words", || "group 7\ngroup".to_string() + &" 7".repeat(70_000), 40, Err((18, 8)), seven),
    ("a number of 70,000 zeros", || "group 7\ngroup ".to_string() + &"0".repeat(70_000), 40, Err((18, 8)), seven),
];

pub fn run(pair: &Pair, case: u64) -> Outcome {
    runs(pair, ROWS[case as usize])
}

pub fn runs(pair: &Pair, (what, text, length, said, image): Row) -> Outcome {
    let (text, image) = (text(), image());
    let said = said.map(|()| image.len()).map_err(|(number, place)| TextRefusal { number, place });
    let after = [&image[..], &room(length)[image.len()..]].concat();
    both(pair, what, (said, after), |subject| built(subject, text.as_bytes(), length))
}

/// Case n is a buffer of n bytes, under 9: 13 at place 0 whatever the text, and no byte is written.
pub fn under_9(pair: &Pair, case: u64) -> Outcome {
    let length = case as usize;
    for text in ["", "\n", "\n\n\n", "group 7\n", "\n\ngroup 7", "GROUP", "\nGROUP", "group 1024\n", SAMPLE_TEXT] {
        let untouched = (Err(TextRefusal { number: 13, place: 0 }), room(length));
        both(pair, text, untouched, |subject| built(subject, text.as_bytes(), length))?;
    }
    Ok(())
}

pub fn far(rows: usize) -> String {
    "\n".repeat(rows)
}

fn empty() -> Vec<u8> {
    EMPTY.to_vec()
}

pub fn seven() -> Vec<u8> {
    vec![1, 0, 13, 0, 1, 0, 0, 0, 0, 4, 1, 0, 7]
}

/// The sample without its last record, of 11 bytes.
fn before_the_last() -> Vec<u8> {
    let mut image = SAMPLE[..69].to_vec();
    (image[2], image[8]) = (69, 1);
    image
}

/// Groups of one member each.
pub fn many(members: &[u16]) -> Vec<u8> {
    Draft { groups: members.iter().map(|member| group(&[*member])).collect(), ..Draft::default() }.image()
}

pub fn groups() -> Vec<u8> {
    Draft { groups: lone_groups(256), ..Draft::default() }.image()
}

fn groups_and_rule() -> Vec<u8> {
    let rules = vec![transition(32768 + 255, 32768, 3)];
    Draft { groups: lone_groups(256), rules, ..Draft::default() }.image()
}

fn rules() -> Vec<u8> {
    Draft { rules: vec![allow(1, 2, 3, 4, 1); 1024], ..Draft::default() }.image()
}

fn limits() -> Vec<u8> {
    Draft { constraints: vec![constraint(1, 2, 3, 4, 0, &[]); 256], ..Draft::default() }.image()
}
