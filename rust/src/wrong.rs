//! What is wrong with a row, in words that whoever typed it can act on.

use crate::form::{is_digits, Field, Form, MOST_BASIC, MOST_GROUP, MOST_PREDICATE, MOST_SWITCH};
use crate::shown::Word;
use crate::{EMPTY, LARGEST};
use std::fmt;

/// The first thing that is found wrong with a refused row.
#[derive(Clone, Copy, Debug, PartialEq, Eq)]
pub(crate) enum Wrong<'t> {
    // Outside the form: a byte that no row has, a comment, what stands between words, a word.
    ByteOrderMark,
    ReturnAtEnd,
    ReturnWithin,
    Comment(Word<'t>),
    Blank,
    StartsWith(Gap),
    EndsIn(Gap),
    Between(Gap, Word<'t>),
    FirstWord(Word<'t>),
    WordCount(Form, usize),
    NoNumber(Field, Word<'t>),
    LeadingZero(Field, Word<'t>),
    GroupAsMember(Word<'t>),
    Condition(Word<'t>),
    // Outside the form, or a field that breaks its rule.
    Over(Field, Word<'t>),
    // A field that breaks its rule.
    Undefined { field: Field, group: Word<'t>, groups: usize },
    NotRising { before: Word<'t>, member: Word<'t> },
    List { predicate: u32, types: usize },
    // A right row, whose group is there already.
    Twin { group: usize, row: usize },
    // A right row, for which there is no room.
    Full(Form),
    Short { buffer: usize, needed: usize },
    // No row's fault: the buffer does not even hold the empty policy.
    NoBuffer(usize),
    // Nothing found: the linked library has a cause that this crate does not know.
    Unfound,
}

/// What people put between words.
#[derive(Clone, Copy, Debug, PartialEq, Eq)]
pub(crate) enum Gap {
    Space,
    Tab,
}

impl fmt::Display for Gap {
    fn fmt(&self, f: &mut fmt::Formatter<'_>) -> fmt::Result {
        f.write_str(match self {
            Gap::Space => "a space",
            Gap::Tab => "a tab",
        })
    }
}

// What to write instead.
const MEMBERS: &str = "write basic types only, and not the group's own number";
const TYPES: &str = "write its number, or g and the number of a group";
const PREDICATES: &str = "write 0 for a ban, 1 for a separation, 2 for a roster or 3 for a companion";

impl fmt::Display for Wrong<'_> {
    fn fmt(&self, f: &mut fmt::Formatter<'_>) -> fmt::Result {
        match *self {
            Wrong::ByteOrderMark => write!(f, "the row starts with a byte order mark: save the text as plain ASCII"),
            Wrong::ReturnAtEnd => write!(f, "the row ends in a carriage return: save the text with line feeds only"),
            Wrong::ReturnWithin => write!(f, "the row has a carriage return: save the text with line feeds only"),
            Wrong::Comment(word) => write!(f, "`{word}` starts a comment, and a text has none: remove it"),
            Wrong::Blank => write!(f, "the row has nothing but spaces or tabs: leave it empty"),
            Wrong::StartsWith(gap) => write!(f, "the row starts with {gap}: remove it"),
            Wrong::EndsIn(gap) => write!(f, "the row ends in {gap}: remove it"),
            Wrong::Between(Gap::Space, word) => write!(f, "two spaces follow `{word}`: separate words by one"),
            Wrong::Between(Gap::Tab, word) => write!(f, "a tab follows `{word}`: separate words by one space"),
            Wrong::FirstWord(word) => first_word(f, word),
            Wrong::WordCount(form, words) => word_count(f, form, words),
            Wrong::NoNumber(field, word) => no_number(f, field, word),
            Wrong::LeadingZero(field, word) => write!(f, "{field} `{word}` has a leading zero"),
            Wrong::GroupAsMember(word) => write!(f, "`{word}` cannot be a member: {MEMBERS}"),
            Wrong::Condition(word) => condition(f, word),
            Wrong::Over(field, word) => over(f, field, word),
            Wrong::Undefined { field, group, groups } => undefined(f, field, group, groups),
            Wrong::NotRising { before, member } => write!(f, "members must rise, and `{member}` follows `{before}`"),
            Wrong::List { predicate, types } => list(f, predicate, types),
            Wrong::Twin { group, row } => write!(f, "these are the members of g{group} (row {row}): use g{group}"),
            Wrong::Full(form) => full(f, form),
            Wrong::Short { buffer, needed } => short(f, buffer, "with this row the image", needed),
            Wrong::NoBuffer(buffer) => short(f, buffer, "even the empty policy", EMPTY.len()),
            Wrong::Unfound => write!(f, "the row is refused"),
        }
    }
}

fn first_word(f: &mut fmt::Formatter<'_>, word: Word<'_>) -> fmt::Result {
    write!(f, "`{word}` is none of group, allow, trans and limit")?;
    if Form::ALL.iter().any(|form| word.0.eq_ignore_ascii_case(form.word().as_bytes())) {
        write!(f, ": write it in lower case")?;
    }
    Ok(())
}

fn word_count(f: &mut fmt::Formatter<'_>, form: Form, words: usize) -> fmt::Result {
    let takes = match form {
        Form::Group => "group takes 1 to 64 members",
        Form::Allow => "allow takes source, destination, class, action and on, off or a switch: 5 words",
        Form::Trans => "trans takes source, destination and class: 3 words",
        Form::Limit => "limit takes class, action, two arguments, predicate and up to 16 list types: 5 to 21 words",
    };
    write!(f, "{takes}, and here {}", Counted(words))
}

fn no_number(f: &mut fmt::Formatter<'_>, field: Field, word: Word<'_>) -> fmt::Result {
    match field {
        Field::Predicate => write!(f, "predicate `{word}` is no number: {PREDICATES}"),
        _ if field.is_type() => write!(f, "{field} `{word}` is no type: {TYPES}"),
        _ => write!(f, "{field} `{word}` is no number: write digits only"),
    }
}

fn condition(f: &mut fmt::Formatter<'_>, word: Word<'_>) -> fmt::Result {
    match word.0 {
        [b'S', digits @ ..] if is_digits(digits) => write!(f, "`{word}` is no switch: write it in lower case"),
        _ if word.0.eq_ignore_ascii_case(b"on") || word.0.eq_ignore_ascii_case(b"off") => {
            write!(f, "`{word}` is neither on nor off: write it in lower case")
        }
        _ => write!(f, "`{word}` is no condition: write on, off, or s0 to s{MOST_SWITCH} for a switch"),
    }
}

/// What is over the form's limit is over its field's too, and that is the limit to keep to.
fn over(f: &mut fmt::Formatter<'_>, field: Field, word: Word<'_>) -> fmt::Result {
    match field {
        Field::Class | Field::Action => write!(f, "{field} `{word}` is over {}", field.most()),
        Field::Predicate => write!(f, "predicate `{word}` is over {MOST_PREDICATE}: {PREDICATES}"),
        Field::Condition => write!(f, "there is no switch `{word}`: switches are s0 to s{MOST_SWITCH}"),
        _ if word.0.starts_with(b"g") => write!(f, "{field} `{word}` is over g{MOST_GROUP}, the highest group"),
        _ => write!(f, "{field} `{word}` is over {MOST_BASIC}, the highest basic type"),
    }
}

fn undefined(f: &mut fmt::Formatter<'_>, field: Field, group: Word<'_>, groups: usize) -> fmt::Result {
    write!(f, "{field} `{group}` is not defined yet: ")?;
    match groups {
        0 => write!(f, "no group row stands before this row"),
        1 => write!(f, "one group row stands before this row, g0"),
        _ => write!(f, "{groups} group rows stand before this row, g0 to g{}", groups - 1),
    }
}

fn list(f: &mut fmt::Formatter<'_>, predicate: u32, types: usize) -> fmt::Result {
    let takes = match predicate {
        0 => "a ban (predicate 0) takes no list types",
        1 => "a separation (predicate 1) takes no list types",
        2 => "a roster (predicate 2) takes 1 to 16 list types",
        _ => "a companion (predicate 3) takes no list types",
    };
    write!(f, "{takes}, and here {}", Counted(types))
}

fn full(f: &mut fmt::Formatter<'_>, form: Form) -> fmt::Result {
    let most = match form {
        Form::Group => "256 groups",
        Form::Allow | Form::Trans => "1024 rules (allow and trans)",
        Form::Limit => "256 constraints (limit)",
    };
    write!(f, "a policy has at most {most}, and so many stand before this row")
}

fn short(f: &mut fmt::Formatter<'_>, buffer: usize, what: &str, needed: usize) -> fmt::Result {
    write!(f, "the buffer has {buffer} bytes, and {what} takes {needed}: every policy fits into {LARGEST}")
}

/// How many there are.
struct Counted(usize);

impl fmt::Display for Counted {
    fn fmt(&self, f: &mut fmt::Formatter<'_>) -> fmt::Result {
        match self.0 {
            0 => write!(f, "is none"),
            1 => write!(f, "is 1"),
            count => write!(f, "are {count}"),
        }
    }
}
