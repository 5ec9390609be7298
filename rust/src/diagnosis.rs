//! Finds what is wrong with a row that the library refused.

use crate::form::{is_digits, Field, Form, MOST_BASIC, MOST_GROUP, MOST_PREDICATE};
use crate::shown::Word;
use crate::wrong::{Gap, Wrong};
use crate::{Cause, EMPTY};

/// Marks that editors put at the start of a text.
const BYTE_ORDER_MARKS: [&[u8]; 3] = [b"\xEF\xBB\xBF", b"\xFE\xFF", b"\xFF\xFE"];

/// What is wrong with a row, from the cause, from the text before it and from the buffer that holds that text's image.
pub(crate) fn find<'t>(cause: Option<Cause>, before: &[u8], row: &'t [u8], buffer: &[u8]) -> Wrong<'t> {
    if buffer.len() < EMPTY.len() {
        return Wrong::NoBuffer(buffer.len());
    }
    let number = |at: usize| usize::from(u16::from_be_bytes([buffer[at], buffer[at + 1]]));
    let (image, groups) = (number(1), number(3));
    let found = match cause {
        Some(Cause::Form) => outside_form(row),
        Some(Cause::AddedField) => against_rule(row, groups),
        Some(Cause::AddedTwin) => twin(before, row),
        Some(Cause::Full) => form_of(row).map(Wrong::Full),
        Some(Cause::ShortBuffer) => short(row, image, buffer.len()),
        _ => None,
    };
    found.unwrap_or(Wrong::Unfound)
}

/// The group row before with the same members, which is the same row: there is one way only to write a member.
fn twin<'t>(before: &[u8], row: &[u8]) -> Option<Wrong<'t>> {
    let rows = before.split(|byte| *byte == b'\n').zip(1..);
    let groups = rows.filter(|(row, _)| form_of(row) == Some(Form::Group)).zip(0..);
    let mut twins = groups.filter(|((earlier, _), _)| *earlier == row);
    twins.next().map(|((_, row), group)| Wrong::Twin { group, row })
}

fn short(row: &[u8], image: usize, buffer: usize) -> Option<Wrong<'_>> {
    let needed = image + form_of(row)?.record_length(words_of(row).count());
    Some(Wrong::Short { buffer, needed })
}

/// What puts a row outside the form; `None` where it is within. What editors do to a whole text comes first.
fn outside_form(row: &[u8]) -> Option<Wrong<'_>> {
    foreign_byte(row).or_else(|| comment(row)).or_else(|| stray_gap(row)).or_else(|| stray_word(row))
}

fn foreign_byte(row: &[u8]) -> Option<Wrong<'_>> {
    match row {
        _ if BYTE_ORDER_MARKS.iter().any(|mark| row.starts_with(mark)) => Some(Wrong::ByteOrderMark),
        [.., b'\r'] => Some(Wrong::ReturnAtEnd),
        _ if row.contains(&b'\r') => Some(Wrong::ReturnWithin),
        _ => None,
    }
}

fn comment(row: &[u8]) -> Option<Wrong<'_>> {
    let mut words = row.split(|byte| is_gap(*byte));
    words.find(|word| word.starts_with(b"#") || word.starts_with(b"//")).map(|word| Wrong::Comment(Word(word)))
}

fn stray_gap(row: &[u8]) -> Option<Wrong<'_>> {
    if row.iter().all(|byte| is_gap(*byte)) {
        return (!row.is_empty()).then_some(Wrong::Blank);
    }
    match row {
        [b' ', ..] => Some(Wrong::StartsWith(Gap::Space)),
        [b'\t', ..] => Some(Wrong::StartsWith(Gap::Tab)),
        [.., b' '] => Some(Wrong::EndsIn(Gap::Space)),
        [.., b'\t'] => Some(Wrong::EndsIn(Gap::Tab)),
        _ => {
            let mut pairs = row.windows(2);
            let wide = pairs.position(|pair| pair[0] == b'\t' || pair == b"  " || pair == b" \t")?;
            let gap = if row[wide..wide + 2].contains(&b'\t') { Gap::Tab } else { Gap::Space };
            let word = row[..wide].rsplit(|byte| *byte == b' ').next()?;
            Some(Wrong::Between(gap, Word(word)))
        }
    }
}

fn stray_word(row: &[u8]) -> Option<Wrong<'_>> {
    let Some(form) = form_of(row) else { return Some(Wrong::FirstWord(Word(first_word(row)))) };
    let words = words_of(row).count();
    if !form.words().contains(&words) {
        return Some(Wrong::WordCount(form, words));
    }
    fields_of(row, form).find_map(|(field, word)| not_in_field(field, word))
}

/// Why a word cannot stand for a field at all.
fn not_in_field(field: Field, word: &[u8]) -> Option<Wrong<'_>> {
    if field == Field::Condition {
        return not_a_condition(word);
    }
    let (is_group, digits) = split_group(word);
    match digits {
        _ if !is_digits(digits) => Some(Wrong::NoNumber(field, Word(word))),
        _ if is_group && field == Field::Member => Some(Wrong::GroupAsMember(Word(word))),
        _ if is_group && !field.is_type() => Some(Wrong::NoNumber(field, Word(word))),
        _ => not_in_range(field, word, digits),
    }
}

/// Why a word is neither on nor off nor a switch.
fn not_a_condition(word: &[u8]) -> Option<Wrong<'_>> {
    match word {
        b"on" | b"off" => None,
        [b's', digits @ ..] if is_digits(digits) => not_in_range(Field::Condition, word, digits),
        _ => Some(Wrong::Condition(Word(word))),
    }
}

/// Why the digits of a word are no number of its field.
fn not_in_range<'t>(field: Field, word: &'t [u8], digits: &[u8]) -> Option<Wrong<'t>> {
    match digits {
        [b'0', _, ..] => Some(Wrong::LeadingZero(field, Word(word))),
        _ => (value(digits) > field.most()).then_some(Wrong::Over(field, Word(word))),
    }
}

/// Which field of a row within the form breaks its rule, in a policy of so many groups; `None` where none does.
fn against_rule(row: &[u8], groups: usize) -> Option<Wrong<'_>> {
    let form = form_of(row)?;
    let types = words_of(row).count().saturating_sub(*Form::Limit.words().start());
    let mut before = None;
    fields_of(row, form).find_map(|(field, word)| match field {
        Field::Member => bad_member(before.replace(word), word),
        Field::Predicate => bad_predicate(word, types),
        _ if field.is_type() => bad_type(field, word, groups),
        _ => None,
    })
}

fn bad_member<'t>(before: Option<&'t [u8]>, member: &'t [u8]) -> Option<Wrong<'t>> {
    if value(member) > MOST_BASIC {
        return Some(Wrong::Over(Field::Member, Word(member)));
    }
    let before = before?;
    (value(before) >= value(member)).then_some(Wrong::NotRising { before: Word(before), member: Word(member) })
}

fn bad_predicate(word: &[u8], types: usize) -> Option<Wrong<'_>> {
    let predicate = value(word);
    if predicate > MOST_PREDICATE {
        return Some(Wrong::Over(Field::Predicate, Word(word)));
    }
    let is_roster = predicate == 2;
    (is_roster == (types == 0)).then_some(Wrong::List { predicate, types })
}

fn bad_type(field: Field, word: &[u8], groups: usize) -> Option<Wrong<'_>> {
    let (is_group, digits) = split_group(word);
    let most = if is_group { MOST_GROUP } else { MOST_BASIC };
    if value(digits) > most {
        return Some(Wrong::Over(field, Word(word)));
    }
    (is_group && value(digits) as usize >= groups).then_some(Wrong::Undefined { field, group: Word(word), groups })
}

fn is_gap(byte: u8) -> bool {
    byte == b' ' || byte == b'\t'
}

fn first_word(row: &[u8]) -> &[u8] {
    row.split(|byte| *byte == b' ').next().unwrap_or(row)
}

fn form_of(row: &[u8]) -> Option<Form> {
    Form::of(first_word(row))
}

/// The words after the first.
fn words_of(row: &[u8]) -> impl Iterator<Item = &[u8]> {
    row.split(|byte| *byte == b' ').skip(1)
}

fn fields_of(row: &[u8], form: Form) -> impl Iterator<Item = (Field, &[u8])> {
    form.fields_of_words().zip(words_of(row))
}

/// Whether a word starts as a group does, and what its number is to be.
fn split_group(word: &[u8]) -> (bool, &[u8]) {
    match word {
        [b'g', digits @ ..] => (true, digits),
        _ => (false, word),
    }
}

/// The number that some digits are, as far as it can matter.
fn value(digits: &[u8]) -> u32 {
    digits
        .iter()
        .fold(0, |value: u32, digit| value.saturating_mul(10).saturating_add(u32::from(digit.wrapping_sub(b'0'))))
}
