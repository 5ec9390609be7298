//! Rows that are refused for their numbers or fields, each behind rows that are not: the cause's number, the place of
//! the row's first byte, and the image of the rows before.

use super::both;
use super::build::built;
use super::build_words;
use crate::compare::{Outcome, Pair};
use crate::sample::{SAMPLE, SAMPLE_TEXT};
use crate::subject::TextRefusal;
use crate::suite::texts::room;

/// What is wrong, the row, and the refusal's number. One group is defined before it.
pub type Row = (&'static str, &'static str, u16);

#[rustfmt::skip]
pub const ROWS: &[Row] = &[
    // Within the form.
    ("member 1024", "group 1024", 11),
    ("member 32767", "group 32767", 11),
    ("a last member of 1024", "group 1 2 3 1024", 11),
    ("equal members", "group 7 7", 11),
    ("members that fall", "group 8 7", 11),
    ("later members that fall", "group 1 3 2 4", 11),
    ("source 1024", "allow 1024 30 5 3 on", 11),
    ("source 32767", "allow 32767 30 5 3 on", 11),
    ("destination 1024", "allow 10 1024 5 3 off", 11),
    ("destination 32767", "allow 10 32767 5 3 off", 11),
    ("source g1", "allow g1 30 5 3 on", 11),
    ("destination g1", "allow 10 g1 5 3 on", 11),
    ("source g32767", "allow g32767 30 5 3 on", 11),
    ("destination g32767", "allow 10 g32767 5 3 on", 11),
    ("source 1024, a switch", "allow 1024 30 5 3 s31", 11),
    ("destination g1, a switch", "allow 10 g1 5 3 s0", 11),
    ("a transition's source 1024", "trans 1024 20 5", 11),
    ("a transition's destination 1024", "trans 12 1024 5", 11),
    ("a transition's source g1", "trans g1 20 5", 11),
    ("a transition's destination g1", "trans 12 g1 5", 11),
    ("a first argument of 1024", "limit 5 1 1024 21 0", 11),
    ("a second argument of 1024", "limit 5 1 10 1024 0", 11),
    ("a first argument of g1", "limit 5 1 g1 21 0", 11),
    ("a second argument of g1", "limit 5 1 10 g1 0", 11),
    ("predicate 4", "limit 5 1 10 21 4", 11),
    ("predicate 255", "limit 5 1 10 21 255", 11),
    ("predicate 4 with a list", "limit 5 1 10 21 4 9", 11),
    ("a roster without a list", "limit 5 1 10 21 2", 11),
    ("a ban with a list", "limit 5 1 10 21 0 9", 11),
    ("a separation with a list", "limit 5 1 10 21 1 9", 11),
    ("a companion with a list", "limit 5 1 10 21 3 9", 11),
    ("a ban with 16 listed types", "limit 5 1 10 21 0 1 2 3 4 5 6 7 8 9 10 11 12 13 14 15 16", 11),
    ("a listed type of 1024", "limit 5 1 10 21 2 1024", 11),
    ("a last listed type of 1024", "limit 5 1 10 21 2 9 8 1024", 11),
    ("a listed type g1", "limit 5 1 10 21 2 g1", 11),
    ("a listed type of 32767", "limit 5 1 10 21 2 32767", 11),
    // Numbers outside the form.
    ("member 32768", "group 32768", 18),
    ("member 65536", "group 65536", 18),
    ("source 32768, which would name g0", "allow 32768 30 5 3 on", 18),
    ("destination 32768, which would name g0", "allow 10 32768 5 3 on", 18),
    ("source 65536, which would wrap to 0", "allow 65536 30 5 3 on", 18),
    ("source 4294967296, which would wrap to 0", "allow 4294967296 30 5 3 on", 18),
    ("class 18446744073709551617, which would wrap to 1", "allow 10 30 18446744073709551617 3 on", 18),
    ("class 4294967297, which would wrap to 1", "allow 10 30 4294967297 3 on", 18),
    ("source g32768, which would wrap to 0", "allow g32768 30 5 3 on", 18),
    ("destination g32768", "allow 10 g32768 5 3 on", 18),
    ("destination g65536", "allow 10 g65536 5 3 on", 18),
    ("class 65536", "allow 10 30 65536 3 on", 18),
    ("action 65536", "allow 10 30 5 65536 on", 18),
    ("class 100000", "allow 10 30 100000 3 on", 18),
    ("a transition's class 65536", "trans 12 20 65536", 18),
    ("a transition's source 32768", "trans 32768 20 5", 18),
    ("a limit's class 65536", "limit 65536 1 10 21 0", 18),
    ("a limit's action 65536", "limit 5 65536 10 21 0", 18),
    ("a first argument of 32768", "limit 5 1 32768 21 0", 18),
    ("a second argument of g32768", "limit 5 1 10 g32768 0", 18),
    ("predicate 256", "limit 5 1 10 21 256", 18),
    ("predicate 258, which would wrap to a roster", "limit 5 1 10 21 258 9", 18),
    ("a listed type of 32768", "limit 5 1 10 21 2 32768", 18),
    ("a listed type g32768", "limit 5 1 10 21 2 g32768", 18),
    ("a class that is a group", "allow 10 30 g0 3 on", 18),
    ("an action that is a group", "allow 10 30 5 g0 on", 18),
    ("a predicate that is a group", "limit 5 1 10 21 g0", 18),
    ("leading zero: 00", "group 00", 18),
    ("leading zero: 07", "group 07", 18),
    ("leading zero: g00", "trans g00 20 5", 18),
    ("leading zero: class 05", "trans 12 20 05", 18),
    ("leading zero: action 00", "allow 10 30 5 00 on", 18),
    ("leading zero: predicate 00", "limit 5 1 10 21 00", 18),
    ("a leading zero of a number over its range", "trans 12 20 065536", 18),
    ("zeros before a basic type", "trans 0000000012 20 5", 18),
    ("+1", "group +1", 18),
    ("-1", "group -1", 18),
    ("-0", "trans 12 20 -0", 18),
    ("g+0", "trans g+0 20 5", 18),
    ("+g0", "trans +g0 20 5", 18),
    ("1.0", "trans 12 20 1.0", 18),
    ("0x5", "trans 12 20 0x5", 18),
    ("1e1", "trans 12 20 1e1", 18),
    ("1_0", "trans 12 20 1_0", 18),
    ("a colon, the byte behind 9", "trans 12 20 1:", 18),
    ("a slash, the byte before 0", "trans 12 20 1/", 18),
    ("g alone", "trans g 20 5", 18),
    ("g and a letter", "trans gg0 20 5", 18),
    ("a group's number before its g", "trans 0g 20 5", 18),
    ("a group as g and a word", "trans g 0 20 5", 18),
    // 18 before the row's own 11.
    ("source 1024, condition ON", "allow 1024 30 5 3 ON", 18),
    ("source 1024, condition s32", "allow 1024 30 5 3 s32", 18),
    ("destination g1, condition s01", "allow 10 g1 5 3 s01", 18),
    ("source g1, a space behind", "allow g1 30 5 3 on ", 18),
    ("equal members, then a group", "group 7 7 g0", 18),
    ("predicate 4, then 256 in the list as a class is not", "limit 5 1 10 21 4 65536", 18),
    ("a transition's source 1024, a word more", "trans 1024 20 5 5", 18),
    ("a roster without a list, a space behind", "limit 5 1 10 21 2 ", 18),
];

/// 65 members: 0 to 64.
fn too_many() -> String {
    (0..65).fold("group".to_string(), |row, member| format!("{row} {member}"))
}

/// The rows before, and the image that they build.
const BEFORE: [(&str, &[u8]); 4] = [
    ("group 20 21\n", &[1, 0, 15, 0, 1, 0, 0, 0, 0, 6, 1, 0, 20, 0, 21]),
    ("\n\ngroup 20 21\n\n", &[1, 0, 15, 0, 1, 0, 0, 0, 0, 6, 1, 0, 20, 0, 21]),
    (SAMPLE_TEXT, &SAMPLE),
    ("\n", &[1, 0, 9, 0, 0, 0, 0, 0, 0]),
];

/// What comes behind a refused row: the end, or rows that are not reached, be they good, outside the form or short.
const BEHIND: [&str; 5] = ["", "\n", "\ngroup 9\ntrans 1 2 3\n", "\nGROUP\n", "\ngroup 1024"];

pub fn run(pair: &Pair, case: u64) -> Outcome {
    let (what, row, number) = ROWS[case as usize];
    refuses(pair, what, row, number)
}

pub fn words(pair: &Pair, case: u64) -> Outcome {
    let (what, row, number) = build_words::ROWS[case as usize];
    refuses(pair, what, row, number)
}

/// One member too many.
pub fn members(pair: &Pair, _: u64) -> Outcome {
    refuses(pair, "65 members", &too_many(), 18)
}

fn refuses(pair: &Pair, what: &str, row: &str, number: u16) -> Outcome {
    for (before, image) in BEFORE {
        for behind in BEHIND {
            let text = [before, row, behind].concat();
            let after = [image, &room(image.len() + 200)[image.len()..]].concat();
            let refused = Err(TextRefusal { number, place: before.len() });
            both(pair, what, (refused, after), |subject| built(subject, text.as_bytes(), image.len() + 200))?;
        }
        let rows = before.bytes().filter(|&byte| byte == b'\n').count();
        let line = Err(format!("R {number} {} {}\n", before.len(), rows + 1));
        both(pair, what, line, |subject| subject.compile([before, row].concat().as_bytes()))?;
    }
    Ok(())
}
