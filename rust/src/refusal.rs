//! Refusals and their causes.

use std::{error, fmt};

/// The engine's no: the cause's number, and the place that it was found at.
#[derive(Clone, Copy, Debug, PartialEq, Eq, Hash)]
pub struct Refusal {
    /// The number of the cause: 1 to 14, 16, 17, 19 or 20.
    pub number: u16,
    /// A place in the image (causes 4 to 7 and 19) or in the added record (cause 11), in bytes from its start; else 0.
    pub place: u16,
}

/// Why the engine refused. Each cause's value is its number.
#[derive(Clone, Copy, Debug, PartialEq, Eq, PartialOrd, Ord, Hash)]
#[non_exhaustive]
pub enum Cause {
    /// The image has fewer than 9 bytes.
    ShortImage = 1,
    /// The version is not 1.
    Version = 2,
    /// The length field is below 9 or is not the image's length (adding: is beyond the buffer).
    Length = 3,
    /// A count is over its limit.
    Count = 4,
    /// A record runs past the image, is not of its section's kinds, or has a length that its kind has not.
    Record = 5,
    /// A field breaks its rule.
    Field = 6,
    /// Bytes follow the last record.
    Trailing = 7,
    /// The query's source is no type of the policy.
    Source = 8,
    /// The query's destination is no type of the policy.
    Destination = 9,
    /// The added record's length or kind is wrong.
    AddedRecord = 10,
    /// A field of the added record, or of a row of a text, breaks its rule.
    AddedField = 11,
    /// The section is at its limit.
    Full = 12,
    /// The buffer cannot hold the image with the record; building: or has fewer than 9 bytes; converting: cannot hold
    /// the new image.
    ShortBuffer = 13,
    /// The section has no record of that number.
    NoRecord = 14,
    /// The run has no row, or more than 64.
    RowCount = 16,
    /// The list of answers has not as many slots as the run has rows.
    AnswerCount = 17,
    /// A row of a text is outside the form.
    Form = 18,
    /// A group of the image has the members of an earlier one. [`convert`](crate::convert) makes an image without it.
    Twin = 19,
    /// The added group, or that of a row of a text, has the members of a group that is there.
    AddedTwin = 20,
}

impl Cause {
    /// Every cause, in the order of their numbers.
    pub const ALL: [Cause; 19] = [
        Cause::ShortImage,
        Cause::Version,
        Cause::Length,
        Cause::Count,
        Cause::Record,
        Cause::Field,
        Cause::Trailing,
        Cause::Source,
        Cause::Destination,
        Cause::AddedRecord,
        Cause::AddedField,
        Cause::Full,
        Cause::ShortBuffer,
        Cause::NoRecord,
        Cause::RowCount,
        Cause::AnswerCount,
        Cause::Form,
        Cause::Twin,
        Cause::AddedTwin,
    ];

    pub(crate) fn of(number: u16) -> Option<Cause> {
        Cause::ALL.into_iter().find(|cause| *cause as u16 == number)
    }

    fn sentence(self) -> &'static str {
        match self {
            Cause::ShortImage => "the image has fewer than 9 bytes",
            Cause::Version => "the image's version is not 1",
            Cause::Length => "the image's length field does not fit the bytes",
            Cause::Count => "a count is over its limit",
            Cause::Record => "a record runs past the image, or its kind or length is wrong",
            Cause::Field => "a field breaks its rule",
            Cause::Trailing => "bytes follow the last record",
            Cause::Source => "the query's source is no type of the policy",
            Cause::Destination => "the query's destination is no type of the policy",
            Cause::AddedRecord => "the added record's length or kind is wrong",
            Cause::AddedField => "a field of the added record breaks its rule",
            Cause::Full => "the section is at its limit",
            Cause::ShortBuffer => "the buffer is too short for the new image",
            Cause::NoRecord => "the section has no record of that number",
            Cause::RowCount => "the run has no row or more than 64: ask 1 to 64 at a time",
            Cause::AnswerCount => "the answers are not as many as the queries: lend one slot for each query",
            Cause::Form => "a row is outside the form",
            Cause::Twin => "a group has the members of an earlier one: `convert` makes an image without it",
            Cause::AddedTwin => "the added group has the members of a group that is there: use that one",
        }
    }

    fn has_place(self) -> bool {
        use Cause::{AddedField, Count, Field, Record, Trailing, Twin};
        matches!(self, Count | Record | Field | Trailing | Twin | AddedField)
    }
}

impl Refusal {
    /// The cause; `None` for a number that this crate does not know.
    pub fn cause(self) -> Option<Cause> {
        Cause::of(self.number)
    }
}

/// A sentence, with the place where the cause has one.
///
/// ```
/// let refusal = mungaite::Refusal { number: 6, place: 17 };
/// assert_eq!(refusal.to_string(), "a field breaks its rule (refusal 6, at byte 17)");
///
/// // The image of `group 1` and `group 1`, as it was accepted once.
/// let refusal = mungaite::check(&[1, 0, 17, 0, 2, 0, 0, 0, 0, 4, 1, 0, 1, 4, 1, 0, 1]).unwrap_err();
/// let message = "a group has the members of an earlier one: `convert` makes an image without it \
///                (refusal 19, at byte 13)";
/// assert_eq!(refusal.to_string(), message);
/// ```
impl fmt::Display for Refusal {
    fn fmt(&self, f: &mut fmt::Formatter<'_>) -> fmt::Result {
        let Refusal { number, place } = self;
        match self.cause() {
            Some(cause) if cause.has_place() => write!(f, "{} (refusal {number}, at byte {place})", cause.sentence()),
            Some(cause) => write!(f, "{} (refusal {number})", cause.sentence()),
            None => write!(f, "refused (refusal {number}, at byte {place})"),
        }
    }
}

impl error::Error for Refusal {}
