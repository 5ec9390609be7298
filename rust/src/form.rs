//! The forms of a row: its first word, and the fields that the words after it stand for.

use std::{fmt, ops::RangeInclusive};

#[derive(Clone, Copy, Debug, PartialEq, Eq)]
pub(crate) enum Form {
    Group,
    Allow,
    Trans,
    Limit,
}

#[derive(Clone, Copy, Debug, PartialEq, Eq)]
pub(crate) enum Field {
    Member,
    Source,
    Destination,
    Class,
    Action,
    Condition,
    First,
    Second,
    Predicate,
    List,
}

/// The highest basic type, group and predicate that a row may name. The form has room for more.
pub(crate) const MOST_BASIC: u32 = 1023;
pub(crate) const MOST_GROUP: u32 = 255;
pub(crate) const MOST_PREDICATE: u32 = 3;

/// The highest switch. The form has no room for more.
pub(crate) const MOST_SWITCH: u32 = 31;

/// Whether these are the digits of a number.
pub(crate) fn is_digits(digits: &[u8]) -> bool {
    !digits.is_empty() && digits.iter().all(u8::is_ascii_digit)
}

impl Form {
    pub const ALL: [Form; 4] = [Form::Group, Form::Allow, Form::Trans, Form::Limit];

    pub fn of(first: &[u8]) -> Option<Form> {
        Form::ALL.into_iter().find(|form| form.word().as_bytes() == first)
    }

    pub fn word(self) -> &'static str {
        match self {
            Form::Group => "group",
            Form::Allow => "allow",
            Form::Trans => "trans",
            Form::Limit => "limit",
        }
    }

    fn fields(self) -> &'static [Field] {
        match self {
            Form::Group => &[Field::Member],
            Form::Allow => &[Field::Source, Field::Destination, Field::Class, Field::Action, Field::Condition],
            Form::Trans => &[Field::Source, Field::Destination, Field::Class],
            Form::Limit => &[Field::Class, Field::Action, Field::First, Field::Second, Field::Predicate, Field::List],
        }
    }

    /// What each word after the first stands for; the last field is the one that may come again.
    pub fn fields_of_words(self) -> impl Iterator<Item = Field> {
        let fields = self.fields();
        fields.iter().chain(fields.last().into_iter().cycle()).copied()
    }

    /// How many words may follow the first.
    pub fn words(self) -> RangeInclusive<usize> {
        match self {
            Form::Group => 1..=64,
            Form::Allow => 5..=5,
            Form::Trans => 3..=3,
            Form::Limit => 5..=21,
        }
    }

    /// The length of the record of a row with so many words after the first.
    pub fn record_length(self, words: usize) -> usize {
        match self {
            Form::Group => 2 + 2 * words,
            Form::Allow => 11,
            Form::Trans => 8,
            Form::Limit => 1 + 2 * words,
        }
    }
}

impl Field {
    /// The highest number that the form has for it. A condition has one only where it is a switch.
    pub fn most(self) -> u32 {
        match self {
            Field::Class | Field::Action => 65535,
            Field::Predicate => 255,
            Field::Condition => MOST_SWITCH,
            _ => 32767,
        }
    }

    /// Whether it holds a type, and so may name a group.
    pub fn is_type(self) -> bool {
        matches!(self, Field::Source | Field::Destination | Field::First | Field::Second | Field::List)
    }
}

impl fmt::Display for Field {
    fn fmt(&self, f: &mut fmt::Formatter<'_>) -> fmt::Result {
        f.write_str(match self {
            Field::Member => "member",
            Field::Source => "source",
            Field::Destination => "destination",
            Field::Class => "class",
            Field::Action => "action",
            Field::Condition => "condition",
            Field::First => "first argument",
            Field::Second => "second argument",
            Field::Predicate => "predicate",
            Field::List => "list type",
        })
    }
}
