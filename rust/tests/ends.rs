//! The crate at its ends: calls on the largest policy, and each value of each small type. What is expected was worked out
//! from the documents by hand. The largest policy's records are these:
//!
//! - group g, 0 to 255: 64 members, g to g + 63;
//! - rule r, 0 to 1023: allow type r to group r % 256, class 65535, action r, while switch r % 32 is on;
//! - constraint c, 0 to 255: class 65535, action 768 + c, arguments 768 + c and c, a roster of the types 0 to 15.
//!
//! So a rule covers queries of its own source alone. Constraint c applies to the queries that rule 768 + c covers, and
//! fails where the destination is c, since that rule's source is not in the roster.

use mungaite::{add, build, check, convert, decide, group, image, raw, record, run};
use mungaite::{
    Cause, Condition, Decision, Kind, Nearest, Query, Refusal, Run, Section, Step, EMPTY, LARGEST, MOST_ROWS,
};

/// Where the last group, rule and constraint of the largest image stand, and the last of its fields.
const LAST_GROUP: usize = 33_159;
const LAST_RULE: usize = 44_542;
const LAST_CONSTRAINT: usize = 55_518;
const LAST_TYPE: usize = 55_559;

fn bytes_of(length: u8, kind: u8, numbers: impl IntoIterator<Item = usize>) -> Vec<u8> {
    [length, kind].into_iter().chain(numbers.into_iter().flat_map(|n| (n as u16).to_be_bytes())).collect()
}

fn group_record(g: usize) -> Vec<u8> {
    bytes_of(130, 1, g..g + 64)
}

fn rule_record(r: usize, group: usize) -> Vec<u8> {
    let mut bytes = bytes_of(11, 2, [r, 32768 + group, 65535, r]);
    bytes.push(2 + (r % 32) as u8);
    bytes
}

fn constraint_record(c: usize) -> Vec<u8> {
    let mut bytes = bytes_of(43, 4, [65535, 768 + c, 768 + c, c]);
    bytes.push(2);
    bytes.extend((0..16).flat_map(|t| [0, t]));
    bytes
}

/// The image of the first groups, rules and constraints, where rules name group `last` as group 0.
fn first_records(counts: [usize; 3], last: usize) -> Vec<u8> {
    let groups = (0..counts[0]).flat_map(group_record);
    let rules = (0..counts[1]).flat_map(|r| rule_record(r, if r % 256 == last { 0 } else { r % 256 }));
    let records: Vec<u8> = groups.chain(rules).chain((0..counts[2]).flat_map(constraint_record)).collect();
    let header = [9 + records.len(), counts[0], counts[1], counts[2]];
    [1].into_iter().chain(header.into_iter().flat_map(|n| (n as u16).to_be_bytes())).chain(records).collect()
}

fn largest() -> Vec<u8> {
    first_records([256, 1024, 256], 256)
}

fn largest_as_text() -> String {
    let numbers = |numbers: std::ops::Range<usize>| numbers.map(|n| format!(" {n}")).collect::<String>();
    let groups = (0..256).map(|g| format!("group{}\n", numbers(g..g + 64)));
    let rules = (0..1024).map(|r| format!("allow {r} g{} 65535 {r} s{}\n", r % 256, r % 32));
    let limits = (0..256).map(|c| format!("limit 65535 {} {} {c} 2{}\n", 768 + c, 768 + c, numbers(0..16)));
    groups.chain(rules).chain(limits).collect()
}

fn refusal<T>(number: u16, place: usize) -> Result<T, Refusal> {
    Err(Refusal { number, place: place as u16 })
}

fn near(steps: u8, rule: u16) -> Result<Decision, Refusal> {
    Ok(Decision::NotPermitted { nearest: Some(Nearest { steps, rule }) })
}

/// The query that the last rule covers, and no constraint fails on.
fn last_query() -> Query {
    Query { source: 1023, destination: group(255), class: 65535, action: 1023, switches: 0x8000_0000 }
}

const UNASKED: Result<Decision, Refusal> = Ok(Decision::Permitted { rule: 77 });

#[test]
fn the_functions_have_the_types_of_the_header() {
    let _: unsafe extern "C" fn(*const u8, usize) -> u64 = raw::mungaite_check;
    let _: unsafe extern "C" fn(u16, u16, u16, u16, u32, *const u8, usize) -> u64 = raw::mungaite_decide;
    let _: unsafe extern "C" fn(*const u16, usize, *mut u64, usize, *const u8, usize) -> u64 = raw::mungaite_run;
    let _: unsafe extern "C" fn(u16, u16, *const u8, usize) -> u64 = raw::mungaite_record;
    let _: unsafe extern "C" fn(*mut u8, usize, *const u8, usize) -> u64 = raw::mungaite_add;
    let _: unsafe extern "C" fn(*const u8, usize, *mut u8, usize) -> u64 = raw::mungaite_build;
    let _: unsafe extern "C" fn(*const u8, usize, *mut u8, usize) -> u64 = raw::mungaite_convert;
}

#[test]
fn the_largest_and_the_empty_image_are_accepted() {
    assert_eq!((LARGEST, largest().len(), MOST_ROWS), (55_561, 55_561, 64));
    assert_eq!(check(&largest()), Ok(()));
    assert_eq!(EMPTY.as_slice(), first_records([0; 3], 0));
    assert_eq!(check(&EMPTY), Ok(()));
}

#[test]
fn the_last_records_decide() {
    let policy = largest();
    let ask = |query| decide(&policy, query);
    let query = last_query();
    assert_eq!(ask(query), Ok(Decision::Permitted { rule: 1023 }));
    assert_eq!(ask(Query { destination: 318, ..query }), Ok(Decision::Permitted { rule: 1023 }));
    assert_eq!(ask(Query { destination: 255, ..query }), Ok(Decision::UnKnown { rule: 1023, constraint: 255 }));
    assert_eq!(ask(Query { action: 1022, ..query }), near(4, 1023));
    assert_eq!(ask(Query { class: 65534, ..query }), near(3, 1023));
    assert_eq!(ask(Query { destination: group(254), ..query }), near(2, 1023));
    assert_eq!(ask(Query { source: group(255), ..query }), near(1, 31));
    assert_eq!(ask(Query { switches: 0, ..query }), near(0, 0));
    assert_eq!(ask(Query { source: 1024, destination: 1024, ..query }), refusal(8, 0));
    assert_eq!(ask(Query { source: group(256), ..query }), refusal(8, 0));
    assert_eq!(ask(Query { destination: group(256), ..query }), refusal(9, 0));
    let ruleless = first_records([256, 0, 0], 0);
    assert_eq!(decide(&ruleless, query), Ok(Decision::NotPermitted { nearest: None }));
}

/// Rule 992 + k waits for switch k. Under the others the first rule that is on stops at its source.
#[test]
fn each_switch_turns_its_rule_on() {
    let policy = largest();
    let off = |k: u16| Query::new(992 + k, 287 + k, 65535, 992 + k);
    let alone: Vec<Query> = (0..32).map(|k| off(k).with_switch(k as u8)).collect();
    let others: Vec<Query> = (0..32).map(|k| Query { switches: u32::MAX, ..off(k) }.without_switch(k as u8)).collect();
    let mut answers = [UNASKED; 32];
    assert_eq!(run(&policy, &alone, &mut answers), Ok(Run::Fit));
    for (k, (query, answer)) in alone.iter().zip(answers).enumerate() {
        assert_eq!((query.switches, answer), (1 << k, Ok(Decision::Permitted { rule: 992 + k as u16 })));
        assert_eq!(decide(&policy, *query), answer);
        assert_eq!((0..32).filter(|j| query.has_switch(*j)).collect::<Vec<u8>>(), [k as u8]);
        let word = (1u32 << k).to_be_bytes();
        assert_eq!(query.to_bytes()[8..], word);
    }
    assert_eq!(run(&policy, &others, &mut answers), Ok(Run::Unfit { row: 0 }));
    for (k, (query, answer)) in others.iter().zip(answers).enumerate() {
        assert_eq!((query.switches, answer), (!(1 << k), near(1, (k == 0).into())));
        assert_eq!(decide(&policy, *query), answer);
    }
}

#[test]
fn a_query_is_twelve_bytes() {
    let query = Query { source: 0x0102, destination: 0x8304, class: 0x0506, action: 0x0708, switches: 0x090A_0B0C };
    assert_eq!(query.to_bytes(), [1, 2, 0x83, 4, 5, 6, 7, 8, 9, 10, 11, 12]);
}

#[test]
fn no_switch_is_above_31() {
    let query = Query::default();
    assert!(std::panic::catch_unwind(|| query.with_switch(32)).is_err());
    assert!(std::panic::catch_unwind(|| query.without_switch(32)).is_err());
    assert!(std::panic::catch_unwind(|| query.has_switch(32)).is_err());
    assert!(std::panic::catch_unwind(|| Condition::Switch(32).byte()).is_err());
}

#[test]
fn each_condition_is_read_back() {
    let mut allow = rule_record(0, 0);
    for byte in 0..=255 {
        allow[10] = byte;
        let condition = Condition::of(&allow);
        let text = match byte {
            0 => Some("off".to_string()),
            1 => Some("on".to_string()),
            2..=33 => Some(format!("s{}", byte - 2)),
            _ => None,
        };
        assert_eq!(condition.map(|condition| condition.to_string()), text);
        assert!(condition.is_none_or(|condition| condition.byte() == byte));
    }
    assert_eq!(Condition::of(&rule_record(31, 0)), Some(Condition::Switch(31)));
    for record in [group_record(0), constraint_record(0), bytes_of(8, 3, [1, 2, 3]), allow[..10].to_vec(), vec![]] {
        assert_eq!(Condition::of(&record), None);
    }
}

#[test]
fn the_last_of_the_most_rows_counts() {
    let policy = largest();
    let unknown = Query { destination: 255, ..last_query() };
    let mut queries = vec![last_query(); 65];
    queries[63] = unknown;
    let mut answers = [UNASKED; 65];
    assert_eq!(run(&policy, &queries, &mut answers), refusal(16, 0));
    assert_eq!(run(&policy, &[], &mut []), refusal(16, 0));
    assert_eq!(run(&policy, &queries[..64], &mut answers), refusal(17, 0));
    assert_eq!(run(&policy, &queries[..64], &mut answers[..63]), refusal(17, 0));
    assert_eq!(answers, [UNASKED; 65]);
    assert_eq!(run(&policy, &queries[..64], &mut answers[..64]), Ok(Run::Unfit { row: 63 }));
    assert_eq!(answers[..63], [Ok(Decision::Permitted { rule: 1023 }); 63]);
    assert_eq!(answers[63..], [Ok(Decision::UnKnown { rule: 1023, constraint: 255 }), UNASKED]);
    assert_eq!(run(&policy, &queries[..63], &mut answers[..63]), Ok(Run::Fit));
    assert_eq!(
        [Run::Fit, Run::Unfit { row: 63 }].map(|run| run.to_string()),
        ["fit", "not fit, row 63 is not Permitted"]
    );
}

#[test]
fn each_section_gives_its_last_record_and_none_past_it() {
    let policy = largest();
    assert_eq!(Section::ALL.map(|section| section as u16), [0, 1, 2]);
    let lasts = [(255, LAST_GROUP, 130), (1023, LAST_RULE, 11), (255, LAST_CONSTRAINT, 43)];
    for (section, (n, place, length)) in [Section::Groups, Section::Rules, Section::Constraints].into_iter().zip(lasts)
    {
        assert_eq!(record(&policy, section, n), Ok(&policy[place..place + length]));
        assert_eq!(record(&policy, section, n).map(<[u8]>::as_ptr), Ok(policy[place..].as_ptr()));
        assert_eq!(record(&policy, section, n + 1), refusal(14, 0));
        assert_eq!(record(&policy, section, u16::MAX), refusal(14, 0));
    }
}

/// The last field of the largest image is no type: every call says so, and writes nothing.
#[test]
fn the_last_place_is_named() {
    let mut damaged = largest();
    damaged[LAST_TYPE] = 4;
    let (mut buffer, mut answers) = (damaged.clone(), [UNASKED; 1]);
    assert_eq!(check(&damaged), refusal(6, LAST_TYPE));
    assert_eq!(decide(&damaged, last_query()), refusal(6, LAST_TYPE));
    assert_eq!(run(&damaged, &[last_query()], &mut answers), refusal(6, LAST_TYPE));
    assert_eq!(record(&damaged, Section::Groups, 0), refusal(6, LAST_TYPE));
    assert_eq!(add(&mut buffer, &rule_record(0, 0)), refusal(6, LAST_TYPE));
    assert_eq!(convert(&damaged, &mut buffer), refusal(6, LAST_TYPE));
    assert_eq!((answers[0], buffer), (UNASKED, damaged));
}

#[test]
fn the_last_record_of_each_section_is_added() {
    let lasts = [
        ([255, 0, 0], [256, 0, 0], 255, group_record(255)),
        ([256, 1023, 256], [256, 1024, 256], 1023, rule_record(1023, 255)),
        ([256, 1024, 255], [256, 1024, 256], 255, constraint_record(255)),
    ];
    for (before, after, number, last) in lasts {
        let (old, new) = (first_records(before, 256), first_records(after, 256));
        let mut buffer = old.clone();
        buffer.resize(new.len() - 1, 77);
        assert_eq!(add(&mut buffer, &last), refusal(13, 0));
        assert_eq!(image(&buffer), Some(&old[..]));
        buffer.push(77);
        assert_eq!(add(&mut buffer, &last), Ok(number));
        assert_eq!(image(&buffer), Some(&new[..]));
    }
}

#[test]
fn the_largest_policy_is_built_from_its_text() {
    let text = largest_as_text();
    assert!(text.len() > 65_535);
    let mut buffer = vec![77; LARGEST + 1];
    assert_eq!(build(text.as_bytes(), &mut buffer[..LARGEST]), Ok(&largest()[..]));
    let refused = [(11, "group 1 1"), (12, "group 1023"), (18, "group 1023 "), (20, text.lines().next().unwrap())];
    for (number, row) in refused {
        let text = format!("{text}{row}");
        let error = build(text.as_bytes(), &mut buffer[..LARGEST]).unwrap_err();
        let row_number = 256 + 1024 + 256 + 1;
        assert_eq!((error.number, error.place, error.row), (number, text.len() - row.len(), row_number));
        assert_eq!((error.text, error.cause().map(|cause| cause as u16)), (row.as_bytes(), Some(number)));
        assert_eq!(buffer[..LARGEST], largest());
    }
    assert_eq!(build(text.as_bytes(), &mut buffer[..LARGEST - 1]).unwrap_err().number, 13);
    assert_eq!(buffer[LARGEST], 77);
}

/// The last group is a twin of the first: it goes, and the rules that name it name the first.
#[test]
fn the_largest_image_is_converted() {
    let (mut old, mut buffer) = (largest(), vec![77; LARGEST]);
    old[LAST_GROUP..LAST_GROUP + 130].copy_from_slice(&group_record(0));
    assert_eq!(check(&old), refusal(19, LAST_GROUP));
    assert_eq!(convert(&old, &mut buffer[..55_430]), refusal(13, 0));
    assert_eq!(buffer, vec![77; LARGEST]);
    assert_eq!(convert(&old, &mut buffer), Ok(&first_records([255, 1024, 256], 255)[..]));
    assert_eq!(buffer[55_431..], [77; 130]);
    assert_eq!(convert(&largest(), &mut buffer), Ok(&largest()[..]));
}

/// Each refusal as a call gives it. Those of a text come with the row's place.
#[test]
fn each_refusal_is_given() {
    let policy = largest();
    let with = |place: usize, bytes: &[u8]| {
        let mut damaged = policy.clone();
        damaged[place..place + bytes.len()].copy_from_slice(bytes);
        check(&damaged)
    };
    let and_one = |record: &[u8]| add(&mut policy.clone(), record).map(|_| ());
    let asked = |source, destination| decide(&policy, Query::new(source, destination, 0, 0)).map(|_| ());
    let runs = |rows, slots| run(&policy, &vec![last_query(); rows], &mut vec![UNASKED; slots]).map(|_| ());
    let built = |text: &str, room: usize| {
        let said = |error: mungaite::BuildError<'_>| Refusal { number: error.number, place: error.place as u16 };
        build(text.as_bytes(), &mut [0; 32][..room]).map(|_| ()).map_err(said)
    };
    let refused = [
        (check(&EMPTY[..8]), 1, 0),
        (with(0, &[2]), 2, 0),
        (with(1, &[0]), 3, 0),
        (with(7, &[1, 1]), 4, 7),
        (with(LAST_CONSTRAINT, &[42]), 5, LAST_CONSTRAINT),
        (with(LAST_TYPE, &[4]), 6, LAST_TYPE),
        (with(7, &[0, 255]), 7, LAST_CONSTRAINT),
        (asked(1024, 1024), 8, 0),
        (asked(1023, 1024), 9, 0),
        (and_one(&[1]), 10, 0),
        (and_one(&bytes_of(130, 1, 961..1025)), 11, 128),
        (and_one(&rule_record(0, 0)), 12, 0),
        (built("", 8), 13, 0),
        (record(&policy, Section::Rules, 1024).map(|_| ()), 14, 0),
        (runs(65, 65), 16, 0),
        (runs(64, 63), 17, 0),
        (built("group 1\ngroup  2", 32), 18, 8),
        (with(LAST_GROUP, &group_record(0)), 19, LAST_GROUP),
        (and_one(&group_record(255)), 20, 0),
    ];
    for (answer, number, place) in &refused {
        assert_eq!(*answer, refusal(*number, *place));
    }
    assert_eq!(Cause::ALL.map(|cause| cause as u16), refused.map(|(_, number, _)| number));
    let of_text = [("group 1\ngroup 1", 20), ("group 1\ngroup 1024", 11), ("group 1\ngroup 1 2 3 4 5 6 7 8 9", 13)];
    for (text, number) in of_text {
        assert_eq!(built(text, 32), refusal(number, 8));
    }
}

#[test]
fn each_cause_has_its_number_and_sentence() {
    let causes = [
        (Cause::ShortImage, 1, "the image has fewer than 9 bytes"),
        (Cause::Version, 2, "the image's version is not 1"),
        (Cause::Length, 3, "the image's length field does not fit the bytes"),
        (Cause::Count, 4, "a count is over its limit"),
        (Cause::Record, 5, "a record runs past the image, or its kind or length is wrong"),
        (Cause::Field, 6, "a field breaks its rule"),
        (Cause::Trailing, 7, "bytes follow the last record"),
        (Cause::Source, 8, "the query's source is no type of the policy"),
        (Cause::Destination, 9, "the query's destination is no type of the policy"),
        (Cause::AddedRecord, 10, "the added record's length or kind is wrong"),
        (Cause::AddedField, 11, "a field of the added record breaks its rule"),
        (Cause::Full, 12, "the section is at its limit"),
        (Cause::ShortBuffer, 13, "the buffer is too short for the new image"),
        (Cause::NoRecord, 14, "the section has no record of that number"),
        (Cause::RowCount, 16, "the run has no row or more than 64: ask 1 to 64 at a time"),
        (Cause::AnswerCount, 17, "the answers are not as many as the queries: lend one slot for each query"),
        (Cause::Form, 18, "a row is outside the form"),
        (Cause::Twin, 19, "a group has the members of an earlier one: `convert` makes an image without it"),
        (Cause::AddedTwin, 20, "the added group has the members of a group that is there: use that one"),
    ];
    for (cause, number, sentence) in causes {
        let refusal = Refusal { number, place: 55_559 };
        let place = if matches!(number, 4..=7 | 11 | 19) { ", at byte 55559" } else { "" };
        assert_eq!((cause as u16, refusal.cause()), (number, Some(cause)));
        assert_eq!(refusal.to_string(), format!("{sentence} (refusal {number}{place})"));
    }
    for number in [0, 15, 21, u16::MAX] {
        assert_eq!(Refusal { number, place: 7 }.cause(), None);
        assert_eq!(Refusal { number, place: 7 }.to_string(), format!("refused (refusal {number}, at byte 7)"));
    }
}

#[test]
fn each_decision_says_its_kind_and_its_numbers() {
    let decisions = [
        (Decision::NotPermitted { nearest: None }, Kind::NotPermitted, "NotPermitted, no rules"),
        (Decision::Permitted { rule: 1023 }, Kind::Permitted, "Permitted, rule 1023"),
        (Decision::UnKnown { rule: 1023, constraint: 255 }, Kind::UnKnown, "UnKnown, rule 1023, constraint 255"),
    ];
    for (decision, kind, text) in decisions {
        assert_eq!((decision.kind(), decision.to_string()), (kind, text.to_string()));
        assert_eq!(decision.is_permitted(), kind == Kind::Permitted);
    }
    assert!(Kind::NotPermitted < Kind::Permitted && Kind::Permitted < Kind::UnKnown);
    let steps = [
        (Step::Condition, "condition"),
        (Step::Source, "source"),
        (Step::Destination, "destination"),
        (Step::Class, "class"),
        (Step::Action, "action"),
    ];
    for (passed, (step, text)) in steps.into_iter().enumerate() {
        let nearest = Nearest { steps: passed as u8, rule: 1023 };
        let denied = Decision::NotPermitted { nearest: Some(nearest) };
        assert_eq!((step as usize, Step::ALL[passed], nearest.stopped_at()), (passed, step, step));
        assert_eq!(denied.kind(), Kind::NotPermitted);
        assert_eq!(denied.to_string(), format!("NotPermitted, nearest rule 1023, which stops at the {text}"));
    }
}

/// The image at a buffer's front has both bytes of its length.
#[test]
fn the_front_of_a_buffer_is_as_long_as_it_says() {
    let mut buffer = vec![77; LARGEST + 1];
    buffer[..3].copy_from_slice(&[1, 217, 9]);
    assert_eq!(image(&buffer).map(<[u8]>::len), Some(LARGEST));
    assert_eq!(image(&buffer[..LARGEST]).map(<[u8]>::len), Some(LARGEST));
    assert_eq!(image(&buffer[..LARGEST - 1]), None);
}
