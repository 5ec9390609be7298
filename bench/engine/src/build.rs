//! A policy from its text: one pass, and each row's record goes to the end of its section.

use crate::format::{CONSTRAINTS, GROUPS, HEADER, LIMITS, VERSION};
use crate::record::bad_field;
use crate::row::Row;
use crate::twins::{Met, MOST_SLOTS};

/// Why a text is refused, and the place in it of the refused row's first byte.
#[derive(Clone, Copy, Debug, PartialEq, Eq)]
pub struct BuildRefusal {
    pub number: u16,
    pub place: usize,
}

/// Builds a text's image at the buffer's front and gives its length. A refusal leaves the image of the rows before.
pub fn build(text: &[u8], buffer: &mut [u8]) -> Result<usize, BuildRefusal> {
    if buffer.len() < HEADER {
        return Err(BuildRefusal { number: 13, place: 0 });
    }
    let mut image = Growing::new(buffer);
    let added = add_rows(text, &mut image);
    image.put_header();
    added.map(|()| image.length())
}

/// What a row leaves of the text is empty or starts with a line feed, so line feeds are met as empty rows are.
fn add_rows(text: &[u8], image: &mut Growing<'_>) -> Result<(), BuildRefusal> {
    let mut row = Row::new();
    let mut rest = text;
    while let [first, after @ ..] = rest {
        if *first == b'\n' {
            rest = after;
            continue;
        }
        let place = text.len() - rest.len();
        let refusal = |number| BuildRefusal { number, place };
        rest = row.read(rest).ok_or(refusal(18))?;
        image.add(row.section(), row.record()).map_err(refusal)?;
    }
    Ok(())
}

/// An image whose header is still to be written: how many records each section has, and where it ends.
struct Growing<'b> {
    buffer: &'b mut [u8],
    counts: [u16; 3],
    ends: [usize; 3],
    /// The groups by their places, from the first group on.
    met: Option<Met<MOST_SLOTS>>,
}

impl Growing<'_> {
    fn new(buffer: &mut [u8]) -> Growing<'_> {
        Growing { buffer, counts: [0; 3], ends: [HEADER; 3], met: None }
    }

    fn length(&self) -> usize {
        self.ends[CONSTRAINTS]
    }

    /// Adds a record of a right shape; otherwise cause 11, 20, 12 or 13.
    fn add(&mut self, section: usize, record: &[u8]) -> Result<(), u16> {
        if bad_field(record, self.counts[GROUPS]).is_some() {
            return Err(11);
        }
        if section == GROUPS && self.repeats(record) {
            return Err(20);
        }
        if self.counts[section] == LIMITS[section] {
            return Err(12);
        }
        if record.len() > self.buffer.len() - self.length() {
            return Err(13);
        }
        self.insert(section, record);
        Ok(())
    }

    /// Whether a group is there already. Where it is not, it is met at the place that it is to have: no group moves.
    fn repeats(&mut self, group: &[u8]) -> bool {
        let (groups, at) = (&self.buffer[..self.ends[GROUPS]], self.ends[GROUPS] as u16);
        let met = self.met.get_or_insert(Met::NONE);
        met.meet(group, at, |earlier| groups[usize::from(earlier)..].starts_with(group)).is_some()
    }

    fn insert(&mut self, section: usize, record: &[u8]) {
        let (at, length) = (self.ends[section], self.length());
        if at < length {
            self.buffer.copy_within(at..length, at + record.len());
        }
        self.buffer[at..at + record.len()].copy_from_slice(record);
        self.counts[section] += 1;
        for end in &mut self.ends[section..] {
            *end += record.len();
        }
    }

    fn put_header(&mut self) {
        let [groups, rules, constraints] = self.counts;
        self.buffer[0] = VERSION;
        let fields = [self.length() as u16, groups, rules, constraints];
        for (place, field) in self.buffer[1..HEADER].as_chunks_mut().0.iter_mut().zip(fields) {
            *place = field.to_be_bytes();
        }
    }
}
