//! A policy as text.

use crate::shown::Row;
use crate::wrong::Wrong;
use crate::{answer, diagnosis, raw, Cause};
use std::{error, fmt};

/// Builds the image of a policy that is written as text, at the front of a buffer, and gives that image.
///
/// A row of the text is one record. One space separates words, numbers are decimal without leading zeros, a row ends at
/// a line feed or at the end of the text, and an empty row is skipped. There are no comments, tabs, carriage returns or
/// byte order marks.
///
/// | row | what follows the first word |
/// |---|---|
/// | `group 20 21` | 1 to 64 members: basic types, 0 to 1023, rising |
/// | `allow 10 g0 5 1 on` | source, destination, class, action, and `on`, `off` or a switch, `s0` to `s31` |
/// | `trans 12 20 5` | source, destination, class |
/// | `limit 5 1 10 21 2 10` | class, action, two arguments, predicate, and a list of up to 16 types |
///
/// Groups are numbered from 0 in the order of their rows, and no two have the same members. Where a type is wanted
/// (source, destination, an argument, the list), it is a basic type, or `g` and the number of a group whose row stands
/// before. A class and an action are 0 to 65535. An `allow` row with a switch is on in the queries that have that
/// switch on. Predicate 0 is a ban, 1 a separation, 2 a roster and 3 a companion; a roster has a list of at least one
/// type, and the others have none. A policy has at most 256 groups, 1,024 rules (`allow` and `trans`) and 256
/// constraints (`limit`), and [`LARGEST`](crate::LARGEST) bytes hold every image.
///
/// A refused row ends the building, and the buffer then starts with the image of the rows before it, which
/// [`image`](crate::image) gives: what stood there is gone. Do not decide by it, since the limits of later rows are not
/// in it; to keep the policy in use, build the next one in another buffer. But a buffer of fewer than 9 bytes is left as
/// it was. Bytes past the image stay as they were, on a refusal too.
///
/// ```
/// let mut buffer = [0; 64];
/// let image = mungaite::build(b"group 20 21\nallow 10 g0 5 1 on\n", &mut buffer).unwrap();
/// assert_eq!(image, [1, 0, 26, 0, 1, 0, 1, 0, 0, 6, 1, 0, 20, 0, 21, 11, 2, 0, 10, 128, 0, 0, 5, 0, 1, 1]);
///
/// let error = mungaite::build(b"group 20 21\nallow 10 g1 5 1 on\n", &mut buffer).unwrap_err();
/// assert_eq!((error.number, error.row, error.text), (11, 2, &b"allow 10 g1 5 1 on"[..]));
/// assert_eq!(mungaite::image(&buffer).unwrap(), [1, 0, 15, 0, 1, 0, 0, 0, 0, 6, 1, 0, 20, 0, 21]);
/// ```
pub fn build<'t, 'b>(text: &'t [u8], buffer: &'b mut [u8]) -> Result<&'b [u8], BuildError<'t>> {
    // SAFETY: each pointer and length are those of one slice, and a slice that may be written overlaps no other.
    let answer = unsafe { raw::mungaite_build(text.as_ptr(), text.len(), buffer.as_mut_ptr(), buffer.len()) };
    match answer::built(answer, text, buffer) {
        Ok(length) => Ok(&buffer[..length]),
        Err((number, place)) => Err(BuildError::new(number, place, text, buffer)),
    }
}

/// Why a policy could not be built from its text: the row, and what is wrong with it.
///
/// It borrows the text. What is to outlive the text is the message, which `to_string` gives.
#[derive(Clone, Copy, PartialEq, Eq)]
pub struct BuildError<'t> {
    /// The number of the cause: 11, 12, 13, 18 or 20.
    pub number: u16,
    /// The place in the text of the row's first byte; 0 where the buffer has fewer than 9 bytes.
    pub place: usize,
    /// The row that holds the place, counted from 1, the empty ones too.
    pub row: usize,
    /// That row's bytes, without the line feed.
    pub text: &'t [u8],
    wrong: Wrong<'t>,
}

impl<'t> BuildError<'t> {
    fn new(number: u16, place: usize, text: &'t [u8], buffer: &[u8]) -> BuildError<'t> {
        let (before, rest) = text.split_at(place);
        let row = 1 + before.iter().filter(|byte| **byte == b'\n').count();
        let text = rest.split(|byte| *byte == b'\n').next().unwrap_or(rest);
        BuildError { number, place, row, text, wrong: diagnosis::find(Cause::of(number), before, text, buffer) }
    }

    /// The cause; `None` for a number that this crate does not know.
    pub fn cause(self) -> Option<Cause> {
        Cause::of(self.number)
    }
}

/// The fields, with the row as text and what is wrong with it in words: this is what `unwrap` shows.
impl fmt::Debug for BuildError<'_> {
    fn fmt(&self, f: &mut fmt::Formatter<'_>) -> fmt::Result {
        f.debug_struct("BuildError")
            .field("number", &self.number)
            .field("place", &self.place)
            .field("row", &self.row)
            .field("text", &format_args!("`{}`", Row(self.text)))
            .field("wrong", &format_args!("{}", self.wrong))
            .finish()
    }
}

/// The row's number, the row, and what is wrong with it: what puts it outside the form, before what breaks a rule.
///
/// ```
/// let error = mungaite::build(b"group 20 21\n\nallow 10 g0 5 1 On\n", &mut [0; 64]).unwrap_err();
/// let message = "row 3, `allow 10 g0 5 1 On`: `On` is neither on nor off: write it in lower case (refusal 18)";
/// assert_eq!(error.to_string(), message);
/// ```
impl fmt::Display for BuildError<'_> {
    fn fmt(&self, f: &mut fmt::Formatter<'_>) -> fmt::Result {
        let BuildError { number, row, wrong, .. } = self;
        if !matches!(wrong, Wrong::NoBuffer(_)) {
            write!(f, "row {row}, `{}`: ", Row(self.text))?;
        }
        write!(f, "{wrong} (refusal {number})")
    }
}

impl error::Error for BuildError<'_> {}

#[cfg(test)]
mod messages;
#[cfg(test)]
mod random;
