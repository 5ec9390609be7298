//! Texts and the records of their rows, by section.

use super::both;
use crate::compare::{Outcome, Pair};
use crate::draft::Draft;
use crate::sample::{SAMPLE, SAMPLE_TEXT};
use crate::subject::{Subject, TextRefusal};
use crate::suite::texts::room;

type Records = &'static [&'static [u8]];

/// What a text has, the text, and its groups, rules and constraints.
pub type Row = (&'static str, &'static str, Records, Records, Records);

#[rustfmt::skip]
pub const ROWS: &[Row] = &[
    // Each form of a row, and the ends of its ranges.
    ("one member", "group 7\n", &[GROUP_7], &[], &[]),
    ("two members", "group 20 21\n", &[&[6, 1, 0, 20, 0, 21]], &[], &[]),
    ("members of two bytes", "group 255 256 257 512\n", &[&[10, 1, 0, 255, 1, 0, 1, 1, 2, 0]], &[], &[]),
    ("the lowest and the highest member", "group 0 1023\n", &[&[6, 1, 0, 0, 3, 255]], &[], &[]),
    ("numbers of each length", "group 9 10 99 100 999 1000\n", &[&[14, 1, 0, 9, 0, 10, 0, 99, 0, 100, 3, 231, 3, 232]],
        &[], &[]),
    ("64 members", MEMBERS_64, &[&GROUP_OF_64], &[], &[]),
    ("allow, on", "allow 10 30 5 3 on\n", &[], &[&[11, 2, 0, 10, 0, 30, 0, 5, 0, 3, 1]], &[]),
    ("allow, off", "allow 10 30 5 3 off\n", &[], &[&[11, 2, 0, 10, 0, 30, 0, 5, 0, 3, 0]], &[]),
    ("allow, switch 0", "allow 10 30 5 3 s0\n", &[], &[&[11, 2, 0, 10, 0, 30, 0, 5, 0, 3, 2]], &[]),
    ("allow, switch 9", "allow 10 30 5 3 s9\n", &[], &[&[11, 2, 0, 10, 0, 30, 0, 5, 0, 3, 11]], &[]),
    ("allow, switch 10", "allow 10 30 5 3 s10\n", &[], &[&[11, 2, 0, 10, 0, 30, 0, 5, 0, 3, 12]], &[]),
    ("allow, switch 31", "allow 10 30 5 3 s31\n", &[], &[&[11, 2, 0, 10, 0, 30, 0, 5, 0, 3, 33]], &[]),
    ("conditions of each kind", "allow 1 2 3 4 s1\nallow 1 2 3 4 off\nallow 1 2 3 4 on\n\nallow 1 2 3 4 s30", &[],
        &[&[11, 2, 0, 1, 0, 2, 0, 3, 0, 4, 3], &[11, 2, 0, 1, 0, 2, 0, 3, 0, 4, 0], &[11, 2, 0, 1, 0, 2, 0, 3, 0, 4, 1],
            &[11, 2, 0, 1, 0, 2, 0, 3, 0, 4, 32]], &[]),
    ("allow, all 0", "allow 0 0 0 0 off\n", &[], &[&[11, 2, 0, 0, 0, 0, 0, 0, 0, 0, 0]], &[]),
    ("allow, all at the highest", "allow 1023 1023 65535 65535 on\n", &[],
        &[&[11, 2, 3, 255, 3, 255, 255, 255, 255, 255, 1]], &[]),
    ("allow, numbers of two bytes", "allow 256 511 258 4660 on\n", &[], &[&[11, 2, 1, 0, 1, 255, 1, 2, 18, 52, 1]],
        &[]),
    ("trans", "trans 12 20 5\n", &[], &[&[8, 3, 0, 12, 0, 20, 0, 5]], &[]),
    ("trans, all 0", "trans 0 0 0\n", &[], &[&[8, 3, 0, 0, 0, 0, 0, 0]], &[]),
    ("trans, all at the highest", "trans 1023 1023 65535\n", &[], &[&[8, 3, 3, 255, 3, 255, 255, 255]], &[]),
    ("a ban", "limit 5 1 10 21 0\n", &[], &[], &[BAN]),
    ("a separation", "limit 5 1 10 21 1\n", &[], &[], &[&[11, 4, 0, 5, 0, 1, 0, 10, 0, 21, 1]]),
    ("a companion", "limit 5 1 10 21 3\n", &[], &[], &[&[11, 4, 0, 5, 0, 1, 0, 10, 0, 21, 3]]),
    ("a roster of one type", "limit 5 1 10 21 2 9\n", &[], &[], &[&[13, 4, 0, 5, 0, 1, 0, 10, 0, 21, 2, 0, 9]]),
    ("a roster whose types fall and repeat", "limit 5 1 10 21 2 9 9 8\n", &[], &[],
        &[&[17, 4, 0, 5, 0, 1, 0, 10, 0, 21, 2, 0, 9, 0, 9, 0, 8]]),
    ("a roster of 16 types", "limit 1 2 3 4 2 1 2 3 4 5 6 7 8 9 10 11 12 13 14 15 16\n", &[], &[], &[&ROSTER_OF_16]),
    ("limit, all 0", "limit 0 0 0 0 0\n", &[], &[], &[&[11, 4, 0, 0, 0, 0, 0, 0, 0, 0, 0]]),
    ("limit, all at the highest", "limit 65535 65535 1023 1023 2 1023\n", &[], &[],
        &[&[13, 4, 255, 255, 255, 255, 3, 255, 3, 255, 2, 3, 255]]),
    // Groups as types.
    ("a group as a rule's source", "group 7\nallow g0 7 5 1 on\n", &[GROUP_7], &[&[11, 2, 128, 0, 0, 7, 0, 5, 0, 1, 1]],
        &[]),
    ("a group as a rule's destination", "group 7\nallow 7 g0 5 1 on\n", &[GROUP_7],
        &[&[11, 2, 0, 7, 128, 0, 0, 5, 0, 1, 1]], &[]),
    ("groups as a transition's types", "group 7\ngroup 8\ntrans g1 g0 1\n", &[GROUP_7, GROUP_8],
        &[&[8, 3, 128, 1, 128, 0, 0, 1]], &[]),
    ("groups as arguments and listed types", "group 7\ngroup 8\nlimit 5 1 g0 g1 2 g1 9 g0\n", &[GROUP_7, GROUP_8], &[],
        &[&[17, 4, 0, 5, 0, 1, 128, 0, 128, 1, 2, 128, 1, 0, 9, 128, 0]]),
    // Rows in any order: each record goes to the end of its section.
    ("sections mixed", "limit 5 1 10 21 0\ntrans 12 20 5\ngroup 7\nallow g0 7 5 1 on\ngroup 8\nlimit 5 1 10 21 3\n",
        &[GROUP_7, GROUP_8], &[&[8, 3, 0, 12, 0, 20, 0, 5], &[11, 2, 128, 0, 0, 7, 0, 5, 0, 1, 1]],
        &[BAN, &[11, 4, 0, 5, 0, 1, 0, 10, 0, 21, 3]]),
    ("equal rows", "trans 12 20 5\ntrans 12 20 5\n", &[], &[&[8, 3, 0, 12, 0, 20, 0, 5], &[8, 3, 0, 12, 0, 20, 0, 5]],
        &[]),
    ("a rule between the group that it names and another", "group 7\ntrans g0 g0 1\ngroup 8\n", &[GROUP_7, GROUP_8],
        &[&[8, 3, 128, 0, 128, 0, 0, 1]], &[]),
    // Ends of rows and of the text; empty rows.
    ("no text", "", &[], &[], &[]),
    ("a line feed alone", "\n", &[], &[], &[]),
    ("line feeds alone", "\n\n\n\n", &[], &[], &[]),
    ("a last row without a line feed", "group 7\ngroup 8", &[GROUP_7, GROUP_8], &[], &[]),
    ("one row without a line feed", "group 7", &[GROUP_7], &[], &[]),
    ("allow without a line feed", "allow 10 30 5 3 off", &[], &[&[11, 2, 0, 10, 0, 30, 0, 5, 0, 3, 0]], &[]),
    ("a switch without a line feed", "allow 10 30 5 3 s7", &[], &[&[11, 2, 0, 10, 0, 30, 0, 5, 0, 3, 9]], &[]),
    ("trans without a line feed", "trans 12 20 5", &[], &[&[8, 3, 0, 12, 0, 20, 0, 5]], &[]),
    ("limit without a line feed", "limit 5 1 10 21 0", &[], &[], &[BAN]),
    ("line feeds behind the last row", "group 7\n\n\n", &[GROUP_7], &[], &[]),
    ("line feeds before the first row", "\n\n\ngroup 7", &[GROUP_7], &[], &[]),
    ("an empty row between rows", "group 7\n\ngroup 8\n", &[GROUP_7, GROUP_8], &[], &[]),
    ("empty rows everywhere", "\n\ngroup 7\n\n\n\ngroup 8\n\n", &[GROUP_7, GROUP_8], &[], &[]),
];

pub const GROUP_7: &[u8] = &[4, 1, 0, 7];
const GROUP_8: &[u8] = &[4, 1, 0, 8];
const BAN: &[u8] = &[11, 4, 0, 5, 0, 1, 0, 10, 0, 21, 0];

const MEMBERS_64: &str = "group \
    100 101 102 103 104 105 106 107 108 109 110 111 112 113 114 115 116 117 118 119 120 121 122 123 124 125 126 127 \
    128 129 130 131 132 133 134 135 136 137 138 139 140 141 142 143 144 145 146 147 148 149 150 151 152 153 154 155 \
    156 157 158 159 160 161 162 163\n";

/// A group of 100 to 163.
const GROUP_OF_64: [u8; 130] = {
    let mut record = [0; 130];
    (record[0], record[1]) = (130, 1);
    let mut n = 0;
    while n < 64 {
        record[3 + 2 * n] = 100 + n as u8;
        n += 1;
    }
    record
};

/// A roster of class 1, action 2, arguments 3 and 4, listed types 1 to 16.
#[rustfmt::skip]
const ROSTER_OF_16: [u8; 43] = [
    43, 4, 0, 1, 0, 2, 0, 3, 0, 4, 2,
    0, 1, 0, 2, 0, 3, 0, 4, 0, 5, 0, 6, 0, 7, 0, 8, 0, 9, 0, 10, 0, 11, 0, 12, 0, 13, 0, 14, 0, 15, 0, 16,
];

pub fn run(pair: &Pair, case: u64) -> Outcome {
    let (what, text, groups, rules, constraints) = ROWS[case as usize];
    let records = |records: Records| records.iter().map(|record| record.to_vec()).collect();
    let draft = Draft { groups: records(groups), rules: records(rules), constraints: records(constraints) };
    builds(pair, what, text.as_bytes(), &draft.image())
}

/// The sample typed as text, with and without its last line feed.
pub fn sample(pair: &Pair, case: u64) -> Outcome {
    builds(pair, "the sample", &SAMPLE_TEXT.as_bytes()[..SAMPLE_TEXT.len() - case as usize], &SAMPLE)
}

/// Case k: a rule that waits for switch k, alone and before a group that starts as a switch's number might go on.
pub fn switches(pair: &Pair, case: u64) -> Outcome {
    let row = format!("allow 10 30 5 3 s{case}");
    let rule = [11, 2, 0, 10, 0, 30, 0, 5, 0, 3, 2 + case as u8];
    let alone = [&[1, 0, 20, 0, 0, 0, 1, 0, 0], &rule[..]].concat();
    builds(pair, &row, row.as_bytes(), &alone)?;
    let behind = [&[1, 0, 24, 0, 1, 0, 1, 0, 0], GROUP_7, &rule[..]].concat();
    builds(pair, &row, format!("{row}\ngroup 7\n").as_bytes(), &behind)
}

/// The image in buffers that it just fits and that are longer, whose other bytes stay; and from the program.
pub fn builds(pair: &Pair, what: &str, text: &[u8], image: &[u8]) -> Outcome {
    for spare in [0, 1, 30, 70_000] {
        let after = [image, &room(image.len() + spare)[image.len()..]].concat();
        both(pair, what, (Ok(image.len()), after), |subject| built(subject, text, image.len() + spare))?;
    }
    both(pair, what, Ok(image.to_vec()), |subject| subject.compile(text))
}

/// What a subject says of a text, and then the buffer.
pub fn built(subject: &dyn Subject, text: &[u8], length: usize) -> (Result<usize, TextRefusal>, Vec<u8>) {
    let mut buffer = room(length);
    (subject.build(text, &mut buffer), buffer)
}
