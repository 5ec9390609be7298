//! An image without its twins.

use crate::check::check_but_for_twins;
use crate::format::{count, count_place, put, refusal, CONSTRAINTS, GROUPS, HEADER, LIMITS, RULES};
use crate::twins::{Met, MOST_SLOTS};
use mungaite::Refusal;

/// Writes the image at the buffer's front, each group that repeats an earlier one left out, and gives its length. A
/// refusal leaves the buffer as it was.
pub fn convert(image: &[u8], buffer: &mut [u8]) -> Result<usize, Refusal> {
    check_but_for_twins(image)?;
    let numbers = Numbers::of(image);
    let length = image.len() - numbers.left_out;
    let new = buffer.get_mut(..length).ok_or(refusal(13, 0))?;
    if numbers.left_out == 0 {
        new.copy_from_slice(image);
        return Ok(length);
    }
    copy_kept(image, &numbers, new);
    put(new, 1, length as u16);
    put(new, count_place(GROUPS), numbers.kept);
    rename(&mut new[numbers.end - numbers.left_out..], [count(image, RULES), count(image, CONSTRAINTS)], &numbers.new);
    Ok(length)
}

const MOST_GROUPS: usize = LIMITS[GROUPS] as usize;

/// The new number of each group.
struct Numbers {
    new: [u8; MOST_GROUPS],
    kept: u16,
    /// The bytes of the groups that are left out, and the place where the old groups end.
    left_out: usize,
    end: usize,
}

impl Numbers {
    fn of(image: &[u8]) -> Numbers {
        match count(image, GROUPS) {
            0..=16 => Numbers::by::<32>(image),
            17..=64 => Numbers::by::<128>(image),
            _ => Numbers::by::<MOST_SLOTS>(image),
        }
    }

    /// A group is met by its new number and 1, which tells where it stands.
    fn by<const SLOTS: usize>(image: &[u8]) -> Numbers {
        let mut met = Met::<SLOTS>::NONE;
        let mut places = [0; MOST_GROUPS];
        let mut numbers = Numbers { new: [0; MOST_GROUPS], kept: 0, left_out: 0, end: HEADER };
        for new in &mut numbers.new[..usize::from(count(image, GROUPS))] {
            let at = numbers.end;
            let group = &image[at..at + usize::from(image[at])];
            let repeats = |name: u16| image[usize::from(places[usize::from(name - 1)])..].starts_with(group);
            match met.meet(group, numbers.kept + 1, repeats) {
                Some(name) => {
                    *new = (name - 1) as u8;
                    numbers.left_out += group.len();
                }
                None => {
                    *new = numbers.kept as u8;
                    places[usize::from(numbers.kept)] = at as u16;
                    numbers.kept += 1;
                }
            }
            numbers.end += group.len();
        }
        numbers
    }
}

/// Copies all but the groups that are left out: what stands between two of them at once.
fn copy_kept(image: &[u8], numbers: &Numbers, new: &mut [u8]) {
    let (mut from, mut to, mut at, mut kept) = (0, 0, HEADER, 0);
    for &number in &numbers.new[..usize::from(count(image, GROUPS))] {
        let after = at + usize::from(image[at]);
        if u16::from(number) == kept {
            kept += 1;
        } else {
            new[to..to + (at - from)].copy_from_slice(&image[from..at]);
            (to, from) = (to + (at - from), after);
        }
        at = after;
    }
    new[to..].copy_from_slice(&image[from..]);
}

/// Names the groups by their new numbers in so many rules and constraints.
fn rename(records: &mut [u8], [rules, constraints]: [u16; 2], new: &[u8; MOST_GROUPS]) {
    let mut rest = records;
    for _ in 0..rules {
        let (rule, after) = rest.split_at_mut(usize::from(rest[0]));
        rename_fields(&mut rule[2..6], new);
        rest = after;
    }
    for _ in 0..constraints {
        let (constraint, after) = rest.split_at_mut(usize::from(rest[0]));
        rename_fields(&mut constraint[6..10], new);
        rename_fields(&mut constraint[11..], new);
        rest = after;
    }
}

/// A group's number is below 256, so its field is 128 and the number.
#[inline]
fn rename_fields(fields: &mut [u8], new: &[u8; MOST_GROUPS]) {
    for [high, low] in fields.as_chunks_mut().0 {
        let renamed = new[usize::from(*low)];
        *low = if *high >= 128 { renamed } else { *low };
    }
}
