//! What is said of refused rows: each message on a row made for it.

use super::*;
use crate::{EMPTY, LARGEST};

const ROOM: usize = 400;

/// What is said of the last row, after the row's number and the row itself.
fn said_after(before: &str, row: &str, room: usize) -> String {
    let text = format!("{before}{row}");
    let mut buffer = [0; ROOM];
    let error = build(text.as_bytes(), &mut buffer[..room]).unwrap_err();
    assert_eq!(error.text, row.as_bytes());
    assert_eq!(error.place, before.len());
    assert_eq!(error.row, 1 + before.matches('\n').count());
    let message = error.to_string();
    message.split_once("`: ").expect("a message shows its row").1.to_string()
}

fn said(row: &str) -> String {
    said_after("group 1\n\ngroup 2 3\n", row, ROOM)
}

#[test]
fn a_foreign_byte_is_named() {
    let cases = [
        ("group 1 2\r", "the row ends in a carriage return: save the text with line feeds only (refusal 18)"),
        ("\r", "the row ends in a carriage return: save the text with line feeds only (refusal 18)"),
        ("group 1\rgroup 2", "the row has a carriage return: save the text with line feeds only (refusal 18)"),
        ("\u{FEFF}group 1", "the row starts with a byte order mark: save the text as plain ASCII (refusal 18)"),
    ];
    for (row, message) in cases {
        assert_eq!(said(row), message);
    }
}

#[test]
fn a_comment_is_named_wherever_it_stands() {
    let members = (1..=62).map(|member| member.to_string()).collect::<Vec<_>>().join(" ");
    let behind = format!("group {members} # citrus oils");
    let rows = ["# roses", " # roses", "#  roses", "#\troses", "# roses ", &behind, "limit 5 1 10 21 0 # ban"];
    for row in rows {
        assert_eq!(said(row), "`#` starts a comment, and a text has none: remove it (refusal 18)");
    }
    assert_eq!(said("//roses"), "`//roses` starts a comment, and a text has none: remove it (refusal 18)");
}

#[test]
fn a_stray_space_or_tab_is_named() {
    let cases = [
        ("  ", "the row has nothing but spaces or tabs: leave it empty (refusal 18)"),
        ("\t", "the row has nothing but spaces or tabs: leave it empty (refusal 18)"),
        (" group 1", "the row starts with a space: remove it (refusal 18)"),
        ("\tgroup 1", "the row starts with a tab: remove it (refusal 18)"),
        ("group 1 ", "the row ends in a space: remove it (refusal 18)"),
        ("group 1 2\t", "the row ends in a tab: remove it (refusal 18)"),
        ("trans 10  20 5", "two spaces follow `10`: separate words by one (refusal 18)"),
        ("trans 10\t20  5", "a tab follows `10`: separate words by one space (refusal 18)"),
        ("trans 10 \t20 5", "a tab follows `10`: separate words by one space (refusal 18)"),
        ("group\t1", "a tab follows `group`: separate words by one space (refusal 18)"),
    ];
    for (row, message) in cases {
        assert_eq!(said(row), message);
    }
}

#[test]
fn a_wrong_first_word_is_named() {
    let cases = [
        ("alow 1 2 3 4 on", "`alow` is none of group, allow, trans and limit (refusal 18)"),
        ("Group 1", "`Group` is none of group, allow, trans and limit: write it in lower case (refusal 18)"),
        ("gr\u{F6}up 1", "`gr\\xc3\\xb6up` is none of group, allow, trans and limit (refusal 18)"),
        ("'a' \\", "`'a'` is none of group, allow, trans and limit (refusal 18)"),
        ("abcdefghijklmnopqrstu 1", "`abcdefghijklmnopqrst...` is none of group, allow, trans and limit (refusal 18)"),
    ];
    for (row, message) in cases {
        assert_eq!(said(row), message);
    }
}

#[test]
fn words_too_few_or_too_many_are_counted() {
    let allow = "allow takes source, destination, class, action and on, off or a switch: 5 words";
    let trans = "trans takes source, destination and class: 3 words";
    let limit = "limit takes class, action, two arguments, predicate and up to 16 list types: 5 to 21 words";
    let group = "group takes 1 to 64 members";
    let many = format!("group {}", (0..65).map(|member| member.to_string()).collect::<Vec<_>>().join(" "));
    let cases = [
        ("group", format!("{group}, and here is none (refusal 18)")),
        (&many, format!("{group}, and here are 65 (refusal 18)")),
        ("allow 10 20 5 1", format!("{allow}, and here are 4 (refusal 18)")),
        ("allow 10 20 5 1 on on", format!("{allow}, and here are 6 (refusal 18)")),
        ("trans 10", format!("{trans}, and here is 1 (refusal 18)")),
        ("trans 10 20 5 1", format!("{trans}, and here are 4 (refusal 18)")),
        ("limit 5 1 10 21", format!("{limit}, and here are 4 (refusal 18)")),
        ("limit 5 1 10 21 2 1 1 1 1 1 1 1 1 1 1 1 1 1 1 1 1 1", format!("{limit}, and here are 22 (refusal 18)")),
    ];
    for (row, message) in cases {
        assert_eq!(said(row), message);
    }
}

#[test]
fn a_word_that_is_no_number_of_its_field_is_named() {
    let cases = [
        ("allow 10 20 65536 1 on", "class `65536` is over 65535 (refusal 18)"),
        ("allow 10 20 5 99999999999999999999999 on", "action `99999999999999999999...` is over 65535 (refusal 18)"),
        ("allow 10 20 +5 1 on", "class `+5` is no number: write digits only (refusal 18)"),
        ("allow 10 20 g1 1 on", "class `g1` is no number: write digits only (refusal 18)"),
        ("trans 10 20 07", "class `07` has a leading zero (refusal 18)"),
        ("trans 10 g07 5", "destination `g07` has a leading zero (refusal 18)"),
        ("trans 32768 20 5", "source `32768` is over 1023, the highest basic type (refusal 18)"),
        ("trans g32768 20 5", "source `g32768` is over g255, the highest group (refusal 18)"),
        ("trans G1 20 5", "source `G1` is no type: write its number, or g and the number of a group (refusal 18)"),
        ("trans g 20 5", "source `g` is no type: write its number, or g and the number of a group (refusal 18)"),
        ("group 1 g1", "`g1` cannot be a member: write basic types only, and not the group's own number (refusal 18)"),
        ("group 1, 2", "member `1,` is no number: write digits only (refusal 18)"),
        ("group 32768", "member `32768` is over 1023, the highest basic type (refusal 18)"),
    ];
    for (row, message) in cases {
        assert_eq!(said(row), message);
    }
}

#[test]
fn a_wrong_condition_is_named() {
    let cases = [
        ("allow 10 20 5 1 On", "`On` is neither on nor off: write it in lower case (refusal 18)"),
        ("allow 10 20 5 1 OFF", "`OFF` is neither on nor off: write it in lower case (refusal 18)"),
        ("allow 10 20 5 1 s32", "there is no switch `s32`: switches are s0 to s31 (refusal 18)"),
        ("allow 10 20 5 1 s4294967296", "there is no switch `s4294967296`: switches are s0 to s31 (refusal 18)"),
        ("allow 10 20 5 1 s00", "condition `s00` has a leading zero (refusal 18)"),
        ("allow 10 20 5 1 s031", "condition `s031` has a leading zero (refusal 18)"),
        ("allow 10 20 5 1 S1", "`S1` is no switch: write it in lower case (refusal 18)"),
    ];
    for (row, message) in cases {
        assert_eq!(said(row), message);
    }
    for word in ["1", "s", "S", "s-1", "s+1", "s1x", "1s", "ss1", "x7", "only"] {
        let message = format!("`{word}` is no condition: write on, off, or s0 to s31 for a switch (refusal 18)");
        assert_eq!(said(&format!("allow 10 20 5 1 {word}")), message);
    }
}

#[test]
fn a_type_or_member_against_its_rule_is_named() {
    let cases = [
        ("group 1 1024", "member `1024` is over 1023, the highest basic type (refusal 11)"),
        ("group 1 21 20", "members must rise, and `20` follows `21` (refusal 11)"),
        ("group 1 20 20", "members must rise, and `20` follows `20` (refusal 11)"),
        ("trans 10 1024 5", "destination `1024` is over 1023, the highest basic type (refusal 11)"),
        ("trans g256 20 5", "source `g256` is over g255, the highest group (refusal 11)"),
        (
            "trans g1 g2 5",
            "destination `g2` is not defined yet: 2 group rows stand before this row, g0 to g1 (refusal 11)",
        ),
        ("limit 5 1 1024 21 0", "first argument `1024` is over 1023, the highest basic type (refusal 11)"),
        ("limit 5 1 10 1024 0", "second argument `1024` is over 1023, the highest basic type (refusal 11)"),
        ("limit 5 1 10 21 2 g1 1024", "list type `1024` is over 1023, the highest basic type (refusal 11)"),
    ];
    for (row, message) in cases {
        assert_eq!(said(row), message);
    }
    let none = "source `g0` is not defined yet: no group row stands before this row (refusal 11)";
    assert_eq!(said_after("trans 1 2 3\n", "trans g0 20 5", ROOM), none);
    let one = "source `g1` is not defined yet: one group row stands before this row, g0 (refusal 11)";
    assert_eq!(said_after("group 1\n", "trans g1 20 5", ROOM), one);
}

#[test]
fn a_wrong_predicate_or_list_is_named() {
    let known = "write 0 for a ban, 1 for a separation, 2 for a roster or 3 for a companion";
    let over = |predicate: u16, number: u16| format!("predicate `{predicate}` is over 3: {known} (refusal {number})");
    assert_eq!(said("limit 5 1 10 21 256"), over(256, 18));
    assert_eq!(said("limit 5 1 10 21 4"), over(4, 11));
    assert_eq!(said("limit 5 1 10 21 ban"), format!("predicate `ban` is no number: {known} (refusal 18)"));
    let cases = [
        ("limit 5 1 10 21 0 1", "a ban (predicate 0) takes no list types, and here is 1 (refusal 11)"),
        ("limit 5 1 10 21 1 1 2", "a separation (predicate 1) takes no list types, and here are 2 (refusal 11)"),
        ("limit 5 1 10 21 2", "a roster (predicate 2) takes 1 to 16 list types, and here is none (refusal 11)"),
        ("limit 5 1 10 21 3 1", "a companion (predicate 3) takes no list types, and here is 1 (refusal 11)"),
    ];
    for (row, message) in cases {
        assert_eq!(said(row), message);
    }
}

#[test]
fn a_twin_is_named_with_its_group_and_row() {
    let cases = [
        ("group 1", "these are the members of g0 (row 1): use g0 (refusal 20)"),
        ("group 2 3", "these are the members of g1 (row 3): use g1 (refusal 20)"),
    ];
    for (row, message) in cases {
        assert_eq!(said(row), message);
    }
    let between = "group 4\ntrans g0 2 3\n\ngroup 4 5\nlimit 5 1 10 21 0\n";
    assert_eq!(said_after(between, "group 4 5", ROOM), "these are the members of g1 (row 4): use g1 (refusal 20)");
}

/// It comes before the section's limit and before a buffer that is too short.
#[test]
fn a_twin_without_room_is_named_as_a_twin() {
    assert_eq!(said_after("group 1\n", "group 1", 13), "these are the members of g0 (row 1): use g0 (refusal 20)");
    let rows: Vec<String> = (0..256).chain([255]).map(|member| format!("group {member}")).collect();
    let (text, mut buffer) = (rows.join("\n"), [0; LARGEST]);
    let error = build(text.as_bytes(), &mut buffer).unwrap_err();
    let message = "row 257, `group 255`: these are the members of g255 (row 256): use g255 (refusal 20)";
    assert_eq!(error.to_string(), message);
}

#[test]
fn a_full_section_is_named_with_its_limit() {
    let cases = [
        ("group N", 256, "256 groups"),
        ("allow 1 2 3 4 off", 1024, "1024 rules (allow and trans)"),
        ("trans 1 2 3", 1024, "1024 rules (allow and trans)"),
        ("limit 1 2 3 4 0", 256, "256 constraints (limit)"),
    ];
    for (form, limit, most) in cases {
        let rows: Vec<String> = (0..=limit).map(|number| form.replace('N', &number.to_string())).collect();
        let (text, row) = (rows.join("\n"), &rows[limit]);
        let mut buffer = [0; LARGEST];
        let error = build(text.as_bytes(), &mut buffer).unwrap_err();
        assert_eq!((error.cause(), error.row), (Some(Cause::Full), limit + 1));
        let message = format!("a policy has at most {most}, and so many stand before this row (refusal 12)");
        assert_eq!(error.to_string(), format!("row {}, `{row}`: {message}", limit + 1));
    }
}

#[test]
fn a_short_buffer_is_measured() {
    let room = "every policy fits into 55561 (refusal 13)";
    let needs = |bytes| format!("the buffer has 20 bytes, and with this row the image takes {bytes}: {room}");
    assert_eq!(said_after("group 1\n", "group 1 2 3", 20), needs(21));
    assert_eq!(said_after("group 1\n", "allow 1 2 3 4 on", 20), needs(24));
    assert_eq!(said_after("group 1\n", "trans 1 2 3", 20), needs(21));
    assert_eq!(said_after("", "limit 1 2 3 4 2 5 6", 20), needs(24));
    for length in 0..EMPTY.len() {
        let message = format!("the buffer has {length} bytes, and even the empty policy takes 9: {room}");
        let error = build(b"\ngroup 1", &mut [77; EMPTY.len()][..length]).unwrap_err();
        assert_eq!((error.to_string(), error.place, error.row, error.text), (message, 0, 1, &b""[..]));
    }
}

#[test]
fn a_long_row_is_cut() {
    let row = format!("group {}\t", "1 ".repeat(40));
    let error = build(row.as_bytes(), &mut [0; ROOM]).unwrap_err();
    let shown = format!("row 1, `group {}...`: the row ends in a tab", "1 ".repeat(37));
    assert!(error.to_string().starts_with(&shown), "{error}");
    assert_eq!(error.text, row.as_bytes());
}

#[test]
fn what_unwrap_shows_can_be_read() {
    let error = build(b"group 1\ntrans 1 2 \xFF", &mut [0; ROOM]).unwrap_err();
    let shown = "BuildError { number: 18, place: 8, row: 2, text: `trans 1 2 \\xff`, \
                 wrong: class `\\xff` is no number: write digits only }";
    assert_eq!(format!("{error:?}"), shown);
}

#[test]
fn a_number_that_is_not_known_is_no_panic() {
    let error = BuildError::new(99, 8, b"group 1\ngroup 2\n", &EMPTY);
    assert_eq!((error.cause(), error.to_string()), (None, "row 2, `group 2`: the row is refused (refusal 99)".into()));
}
