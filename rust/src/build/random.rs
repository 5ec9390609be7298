//! Random texts: something is found wrong with every refused row and with no other, and nothing panics.

use super::*;
use crate::EMPTY;

/// The forms, and what their words are: members, types, numbers, a predicate, a condition.
const FORMS: [(&str, &str); 4] = [("group", "mm"), ("allow", "ttnno"), ("trans", "ttn"), ("limit", "nnttp")];

/// Words that are wrong nearly everywhere.
const ODD: [&str; 23] = [
    "g32768",
    "65536",
    "32768",
    "256",
    "07",
    "g00",
    "+1",
    "G0",
    "g",
    "On",
    "s",
    "S0",
    "s01",
    "s32",
    "",
    " ",
    "\t",
    "\r",
    "#",
    "'\"\\`",
    "\0",
    "\u{FEFF}",
    "99999999999999999999",
];

/// Random texts (splitmix64): words, or any bytes.
struct Texts(u64);

impl Texts {
    fn below(&mut self, bound: usize) -> usize {
        self.0 = self.0.wrapping_add(0x9E37_79B9_7F4A_7C15);
        let mixed = (self.0 ^ (self.0 >> 30)).wrapping_mul(0xBF58_476D_1CE4_E5B9);
        let mixed = (mixed ^ (mixed >> 27)).wrapping_mul(0x94D0_49BB_1331_11EB);
        ((mixed ^ (mixed >> 31)) % bound as u64) as usize
    }

    fn pick<'a>(&mut self, items: &[&'a str]) -> &'a str {
        items[self.below(items.len())]
    }

    /// Rows of about the right words, some of them twice.
    fn rows(&mut self) -> Vec<u8> {
        let mut text = Vec::new();
        for _ in 0..1 + self.below(8) {
            let row = self.row();
            if self.below(6) == 0 {
                text.extend(&row);
                text.push(b'\n');
            }
            text.extend(row);
            text.extend(self.pick(&["\n", "\n", "\n", "\n\n", "\n\n\n", "\r\n", ""]).bytes());
        }
        text
    }

    fn row(&mut self) -> Vec<u8> {
        let (form, fields) = FORMS[self.below(4)];
        let mut row = form.as_bytes().to_vec();
        let count = if self.below(4) == 0 { self.below(fields.len() + 4) } else { fields.len() };
        for field in fields.chars().chain(['t', 't', 'm', 'n']).take(count) {
            row.push(b' ');
            row.extend(self.word(field).bytes());
        }
        row
    }

    fn word<'a>(&mut self, field: char) -> &'a str {
        match field {
            _ if self.below(30) == 0 => self.pick(&ODD),
            'm' => self.pick(&["0", "1", "2", "3", "20", "1023", "1024", "32767"]),
            't' => self.pick(&["0", "1", "20", "1023", "g0", "g1", "g2", "g255", "g256", "g32767", "1024"]),
            'p' => self.pick(&["0", "1", "2", "2", "3", "4", "255"]),
            'o' => self.pick(&["on", "off", "s0", "s9", "s10", "s31"]),
            _ => self.pick(&["0", "5", "1024", "65535"]),
        }
    }

    fn bytes(&mut self) -> Vec<u8> {
        (0..self.below(60)).map(|_| self.below(256) as u8).collect()
    }
}

/// Whether something is found in the row that stands at a place, where the cause is one of a row's own.
fn finds(cause: Cause, text: &[u8], place: usize, buffer: &[u8]) -> bool {
    let (before, rest) = text.split_at(place);
    let row = rest.split(|byte| *byte == b'\n').next().unwrap_or(rest);
    diagnosis::find(Some(cause), before, row, buffer) != Wrong::Unfound
}

/// The places of the rows of a text that are not empty.
fn places(text: &[u8]) -> impl Iterator<Item = usize> + '_ {
    let starts = |place: &usize| text[*place] != b'\n' && (*place == 0 || text[place - 1] == b'\n');
    (0..text.len()).filter(starts)
}

/// The causes that lie in a row and those before it, in the order in which they are given.
const ROW_CAUSES: [Cause; 3] = [Cause::Form, Cause::AddedField, Cause::AddedTwin];

/// A cause is found in the row that is refused for it, and in no row that is not: the two agree on what is right.
fn compare(text: &[u8], buffer: &mut [u8]) -> u16 {
    let error = build(text, buffer).map(|_| ()).err();
    let taken = error.map_or(text, |error| &text[..error.place]);
    if buffer.len() >= EMPTY.len() {
        for place in places(taken) {
            let found = ROW_CAUSES.map(|cause| finds(cause, text, place, buffer));
            assert_eq!(found, [false; 3], "{text:?}");
        }
    }
    let Some(error) = error else { return 0 };
    assert_ne!(error.wrong, Wrong::Unfound, "{error}");
    if buffer.len() >= EMPTY.len() {
        let found = ROW_CAUSES.into_iter().find(|cause| finds(*cause, text, error.place, buffer));
        assert_eq!(found, error.cause().filter(|cause| ROW_CAUSES.contains(cause)), "{error}");
    }
    assert!(error.to_string().ends_with(&format!(" (refusal {})", error.number)));
    error.number
}

#[test]
fn a_cause_is_found_in_every_refused_row_and_in_no_other() {
    let mut texts = Texts(3);
    let mut met = [0; 21];
    for _ in 0..40_000 {
        let text = if texts.below(8) == 0 { texts.bytes() } else { texts.rows() };
        let length = if texts.below(4) == 0 { texts.below(60) } else { 400 };
        met[usize::from(compare(&text, &mut [0; 400][..length]))] += 1;
    }
    for number in [0, 11, 13, 18, 20] {
        assert!(met[number] > 100, "{met:?}");
    }
}

#[test]
fn no_row_and_no_cause_panics() {
    let mut texts = Texts(4);
    for _ in 0..20_000 {
        let row = if texts.below(2) == 0 { texts.bytes() } else { texts.rows() };
        let before = if texts.below(2) == 0 { texts.bytes() } else { texts.rows() };
        let buffer: Vec<u8> = (0..texts.below(20)).map(|_| texts.below(256) as u8).collect();
        for cause in Cause::ALL.map(Some).into_iter().chain([None]) {
            let wrong = diagnosis::find(cause, &before, &row, &buffer);
            assert!(!wrong.to_string().is_empty());
        }
    }
}
