//! A row of a text, read into the record that it stands for.

use crate::format::{CONSTRAINTS, FIRST_GROUP, GROUPS, RULES};
use crate::record::{ALLOW, CONSTRAINT, GROUP, TRANSITION};
use crate::switches::FIRST_SWITCH;

/// The most that the form has for each kind of number.
const MOST_BASIC: u32 = 32767;
const MOST_GROUP: u32 = 32767;
const MOST_CLASS: u32 = 65535;
const MOST_PREDICATE: u32 = 255;
const MOST_SWITCH: u32 = 31;

/// The longest records: a group of 64 members, a constraint with a list of 16 types.
const LONGEST_GROUP: usize = 130;
const LONGEST_CONSTRAINT: usize = 43;

/// The record of the row that was read last.
pub struct Row {
    bytes: [u8; LONGEST_GROUP],
    length: usize,
}

impl Row {
    pub fn new() -> Row {
        Row { bytes: [0; LONGEST_GROUP], length: 0 }
    }

    pub fn record(&self) -> &[u8] {
        &self.bytes[..self.length]
    }

    pub fn section(&self) -> usize {
        match self.bytes[1] {
            GROUP => GROUPS,
            CONSTRAINT => CONSTRAINTS,
            _ => RULES,
        }
    }

    /// Reads the row at the front of a text and gives the text past it; `None` where the row is outside the form.
    pub fn read<'t>(&mut self, text: &'t [u8]) -> Option<&'t [u8]> {
        let (first, rest) = text.split_first_chunk()?;
        let mut words = Words { rest };
        match first {
            b"group" => self.read_group(&mut words)?,
            b"allow" => self.read_allow(&mut words)?,
            b"trans" => self.read_transition(&mut words)?,
            b"limit" => self.read_constraint(&mut words)?,
            _ => return None,
        }
        self.bytes[0] = self.length as u8;
        words.ended().then_some(words.rest)
    }

    fn read_group(&mut self, words: &mut Words<'_>) -> Option<()> {
        self.start(GROUP);
        self.put(words.number(MOST_BASIC)?);
        while !words.ended() && self.length < LONGEST_GROUP {
            self.put(words.number(MOST_BASIC)?);
        }
        Some(())
    }

    fn read_allow(&mut self, words: &mut Words<'_>) -> Option<()> {
        self.start(ALLOW);
        self.put(words.type_field()?);
        self.put(words.type_field()?);
        self.put(words.number(MOST_CLASS)?);
        self.put(words.number(MOST_CLASS)?);
        self.put_byte(words.condition()?);
        Some(())
    }

    fn read_transition(&mut self, words: &mut Words<'_>) -> Option<()> {
        self.start(TRANSITION);
        self.put(words.type_field()?);
        self.put(words.type_field()?);
        self.put(words.number(MOST_CLASS)?);
        Some(())
    }

    fn read_constraint(&mut self, words: &mut Words<'_>) -> Option<()> {
        self.start(CONSTRAINT);
        self.put(words.number(MOST_CLASS)?);
        self.put(words.number(MOST_CLASS)?);
        self.put(words.type_field()?);
        self.put(words.type_field()?);
        self.put_byte(words.number(MOST_PREDICATE)? as u8);
        while !words.ended() && self.length < LONGEST_CONSTRAINT {
            self.put(words.type_field()?);
        }
        Some(())
    }

    fn start(&mut self, kind: u8) {
        self.bytes[1] = kind;
        self.length = 2;
    }

    #[inline]
    fn put(&mut self, field: u16) {
        self.bytes[self.length..self.length + 2].copy_from_slice(&field.to_be_bytes());
        self.length += 2;
    }

    fn put_byte(&mut self, field: u8) {
        self.bytes[self.length] = field;
        self.length += 1;
    }
}

/// The words of a row that are still to be read, each with the space before it; the text behind the row follows them.
struct Words<'t> {
    rest: &'t [u8],
}

impl<'t> Words<'t> {
    fn ended(&self) -> bool {
        matches!(self.rest, [] | [b'\n', ..])
    }

    #[inline]
    fn number(&mut self, most: u32) -> Option<u16> {
        match self.rest {
            [b' ', digits @ ..] => self.digits(digits, most),
            _ => None,
        }
    }

    #[inline]
    fn type_field(&mut self) -> Option<u16> {
        match self.rest {
            [b' ', b'g', digits @ ..] => Some(FIRST_GROUP + self.digits(digits, MOST_GROUP)?),
            _ => self.number(MOST_BASIC),
        }
    }

    fn condition(&mut self) -> Option<u8> {
        let (condition, rest) = match self.rest {
            [b' ', b'o', b'n', rest @ ..] => (1, rest),
            [b' ', b'o', b'f', b'f', rest @ ..] => (0, rest),
            [b' ', b's', digits @ ..] => return Some(FIRST_SWITCH + self.digits(digits, MOST_SWITCH)? as u8),
            _ => return None,
        };
        self.rest = rest;
        Some(condition)
    }

    /// A number, from its first digit on. What follows its last digit is looked at by whoever reads on.
    #[inline]
    fn digits(&mut self, digits: &'t [u8], most: u32) -> Option<u16> {
        let [first @ b'0'..=b'9', rest @ ..] = digits else { return None };
        self.rest = rest;
        let mut value = u32::from(first - b'0');
        while let [digit @ b'0'..=b'9', rest @ ..] = self.rest {
            value = value * 10 + u32::from(digit - b'0');
            if *first == b'0' || value > most {
                return None;
            }
            self.rest = rest;
        }
        Some(value as u16)
    }
}
