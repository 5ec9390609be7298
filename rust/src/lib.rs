//! Mungaite: permissions for a policy image.
//!
//! A policy is an image, a slice of bytes: groups of types, rules, constraints. [`build`] makes one from text,
//! [`check`] tells whether an image is accepted, [`decide`] answers a query, [`run`] answers up to 64 with one check of
//! the image, [`record`] gives one of the image's records, [`add`] puts one more into a buffer and [`convert`] takes
//! twins out of an image from the time when they were accepted. Nothing is kept between calls and there is no heap:
//! every call reads the image that it is handed.
//!
//! ```
//! use mungaite::{build, decide, group, Decision, Query};
//!
//! let text = b"group 20 21\nallow 10 g0 5 1 on\n";
//! let mut buffer = [0; mungaite::LARGEST];
//! let image = build(text, &mut buffer).unwrap();
//!
//! let query = Query::new(10, group(0), 5, 1);
//! assert_eq!(decide(image, query), Ok(Decision::Permitted { rule: 0 }));
//!
//! let error = build(b"group 20 21\nallow 10 g1 5 1 on\n", &mut buffer).unwrap_err();
//! let message = "row 2, `allow 10 g1 5 1 on`: \
//!                destination `g1` is not defined yet: one group row stands before this row, g0 (refusal 11)";
//! assert_eq!(error.to_string(), message);
//! ```
//!
//! A rule may wait for one of 32 switches: it is on in the queries that have that switch on, and off in all others.
//!
//! ```
//! # use mungaite::{build, decide, Decision, Nearest, Query};
//! # let mut buffer = [0; mungaite::LARGEST];
//! let image = build(b"allow 15 21 5 1 s0\n", &mut buffer).unwrap();
//! let query = Query::new(15, 21, 5, 1);
//! assert_eq!(decide(image, query), Ok(Decision::NotPermitted { nearest: Some(Nearest { steps: 0, rule: 0 }) }));
//! assert_eq!(decide(image, query.with_switch(0)), Ok(Decision::Permitted { rule: 0 }));
//! ```

#![warn(missing_docs)]

mod answer;
mod build;
mod condition;
mod convert;
mod diagnosis;
mod form;
mod nearest;
mod query;
pub mod raw;
mod refusal;
mod run;
mod shown;
mod wrong;

pub use answer::{Decision, Kind};
pub use build::{build, BuildError};
pub use condition::Condition;
pub use convert::convert;
pub use nearest::{Nearest, Step};
pub use query::{group, Query, Section};
pub use refusal::{Cause, Refusal};
pub use run::{run, Run, MOST_ROWS};

/// The length of the largest image that is accepted.
pub const LARGEST: usize = 55_561;

/// The empty policy: no group, no rule, no constraint.
pub const EMPTY: [u8; 9] = [1, 0, 9, 0, 0, 0, 0, 0, 0];

/// Whether an image is accepted.
///
/// ```
/// assert_eq!(mungaite::check(&mungaite::EMPTY), Ok(()));
/// assert_eq!(mungaite::check(&[]).unwrap_err().number, 1);
/// ```
pub fn check(image: &[u8]) -> Result<(), Refusal> {
    // SAFETY: the pointer and the length are those of one slice.
    answer::checked(unsafe { raw::mungaite_check(image.as_ptr(), image.len()) })
}

/// The decision of a query on an image. The image is checked first.
///
/// ```
/// use mungaite::{decide, Decision, Query, EMPTY};
///
/// let query = Query::new(0, 0, 0, 0);
/// assert_eq!(decide(&EMPTY, query), Ok(Decision::NotPermitted { nearest: None }));
/// assert_eq!(decide(&EMPTY, Query { source: 1024, ..query }).unwrap_err().number, 8);
/// ```
pub fn decide(image: &[u8], query: Query) -> Result<Decision, Refusal> {
    let Query { source, destination, class, action, switches } = query;
    // SAFETY: the pointer and the length are those of one slice.
    answer::decided(unsafe {
        raw::mungaite_decide(source, destination, class, action, switches, image.as_ptr(), image.len())
    })
}

/// Record `n` of a section, counted from 0: its own bytes, a part of the image. The image is checked first.
///
/// ```
/// use mungaite::{record, Section};
///
/// let image = [1, 0, 17, 0, 0, 0, 1, 0, 0, 8, 3, 0, 12, 0, 20, 0, 5];
/// assert_eq!(record(&image, Section::Rules, 0), Ok(&image[9..]));
/// assert_eq!(record(&image, Section::Rules, 1).unwrap_err().number, 14);
/// ```
pub fn record(image: &[u8], section: Section, n: u16) -> Result<&[u8], Refusal> {
    // SAFETY: the pointer and the length are those of one slice.
    answer::found(unsafe { raw::mungaite_record(section as u16, n, image.as_ptr(), image.len()) })
        .map(|part| &image[part])
}

/// Adds a record to the image that a buffer starts with, in place, and gives the record's number in its section.
///
/// The record goes to the end of its section. A group with the members of one that is there is refused. Bytes past the
/// new image stay as they were, and a refusal leaves every byte as it was.
///
/// ```
/// use mungaite::{add, EMPTY};
///
/// // The empty policy, in a buffer with room to grow, and allow type 10 to type 21, class 5, action 1, on.
/// let mut buffer = [0; 64];
/// buffer[..EMPTY.len()].copy_from_slice(&EMPTY);
/// assert_eq!(add(&mut buffer, &[11, 2, 0, 10, 0, 21, 0, 5, 0, 1, 1]), Ok(0));
/// assert_eq!(mungaite::image(&buffer).map(<[u8]>::len), Some(20));
/// ```
pub fn add(buffer: &mut [u8], record: &[u8]) -> Result<u16, Refusal> {
    // SAFETY: each pointer and length are those of one slice, and a slice that may be written overlaps no other.
    answer::added(unsafe { raw::mungaite_add(buffer.as_mut_ptr(), buffer.len(), record.as_ptr(), record.len()) })
}

/// The part of a buffer that its image's length field names, unchecked; `None` where the buffer is shorter.
///
/// ```
/// assert_eq!(mungaite::image(&[1, 0, 9, 0, 0, 0, 0, 0, 0, 77, 77]), Some(&mungaite::EMPTY[..]));
/// assert_eq!(mungaite::image(&[1, 0, 9]), None);
/// ```
pub fn image(buffer: &[u8]) -> Option<&[u8]> {
    let length = u16::from_be_bytes([*buffer.get(1)?, *buffer.get(2)?]);
    buffer.get(..usize::from(length))
}
