//! Policies at each limit and one over it.

use crate::compare::{Outcome, Pair};
use crate::draft::{allow, constraint, group, switch, transition, Draft};
use crate::runner::{Cases, Count};
use crate::sample::{query, under};
use mungaite::{Query, Section, LARGEST};

pub const TESTS: &[Cases] = &[
    Cases { name: "limits/check", count: Count::Listed(CASES), run: check },
    Cases { name: "limits/decide", count: Count::Listed(CASES), run: decide },
    Cases { name: "limits/run", count: Count::Listed(CASES), run },
    Cases { name: "limits/record", count: Count::Listed(CASES), run: record },
    Cases { name: "limits/add", count: Count::Listed(CASES), run: add },
    Cases { name: "limits/convert", count: Count::Listed(3 * CASES), run: convert },
    Cases { name: "limits/permit", count: Count::Listed(CASES), run: permit },
];

/// Groups, rules, constraints, members of each group, types in each list. Everything at its limit comes last.
const SIZES: [[u16; 5]; 15] = [
    [255, 3, 3, 2, 2],
    [256, 3, 3, 2, 2],
    [257, 3, 3, 2, 2],
    [3, 1023, 3, 2, 2],
    [3, 1024, 3, 2, 2],
    [3, 1025, 3, 2, 2],
    [3, 3, 255, 2, 2],
    [3, 3, 256, 2, 2],
    [3, 3, 257, 2, 2],
    [3, 3, 3, 63, 15],
    [3, 3, 3, 64, 16],
    [3, 3, 3, 65, 16],
    [3, 3, 3, 64, 17],
    [256, 1024, 256, 1, 16],
    [256, 1024, 256, 64, 16],
];

const CASES: u64 = SIZES.len() as u64;

/// The policy of a case. Groups are runs of basic types that overlap; rules and constraints use first and last groups.
fn policy(case: u64) -> Draft {
    let [groups, rules, constraints, members, listed] = SIZES[case as usize];
    let type_of = |n: u16| mungaite::group(n % groups.min(256));
    let mut draft = Draft::default();
    for n in 0..groups {
        let lowest = n * 3 % (1025 - members);
        draft.groups.push(group(&(lowest..lowest + members).collect::<Vec<u16>>()));
    }
    let largest = case == CASES - 1;
    for n in 0..rules {
        draft.rules.push(match n % 5 {
            1 if !largest => transition(type_of(n), n % 1024, n),
            2 => allow(type_of(n), type_of(n + 1), n % 7, 1, 0),
            3 => allow(n % 1024, type_of(n * 3), n % 7, 1, 1),
            4 => allow(type_of(n), type_of(n + 1), n % 7, 1, switch((n % 32) as u8)),
            _ => allow(type_of(n), type_of(n + 1), n % 7, 1, 1),
        });
    }
    for n in 0..constraints {
        let predicate = if largest { 2 } else { (n % 4) as u8 };
        let list: Vec<u16> = (0..listed).map(|other| type_of(n + other)).collect();
        let list = if predicate == 2 { &list[..] } else { &[] };
        draft.constraints.push(constraint(n % 7, 1, type_of(n), type_of(n + 1), predicate, list));
    }
    draft
}

/// The policy whose image is the longest.
pub fn largest() -> Draft {
    policy(CASES - 1)
}

/// Queries that rules of every size of number cover, with every other switch on.
fn queries(draft: &Draft) -> [Query; 8] {
    let count = draft.rules.len();
    [0, 1, 2, count / 3, count / 2, count - 3, count - 2, count - 1].map(|n| {
        let field = |at: usize| u16::from_be_bytes([draft.rules[n][at], draft.rules[n][at + 1]]);
        under(0xAAAA_AAAA, query(field(2), field(4), field(6), 1))
    })
}

fn check(pair: &Pair, case: u64) -> Outcome {
    let image = policy(case).image();
    if case == CASES - 1 && image.len() != LARGEST {
        return Err(format!("the largest image has {} bytes", image.len()));
    }
    pair.check(&image)
}

fn decide(pair: &Pair, case: u64) -> Outcome {
    let draft = policy(case);
    let image = draft.image();
    queries(&draft).into_iter().try_for_each(|query| pair.decide(&image, query))
}

fn run(pair: &Pair, case: u64) -> Outcome {
    let draft = policy(case);
    let rows = queries(&draft);
    pair.run(&draft.image(), &rows, rows.len())
}

fn record(pair: &Pair, case: u64) -> Outcome {
    let draft = policy(case);
    let image = draft.image();
    for section in Section::ALL {
        let count = draft.of(section).len() as u16;
        for n in [0, 1, count / 2, count - 1, count, count + 1] {
            pair.record(&image, section, n)?;
        }
    }
    Ok(())
}

/// Each kind of record into a buffer with no room, with just too little, with just enough and with more.
fn add(pair: &Pair, case: u64) -> Outcome {
    let draft = policy(case);
    let image = draft.image();
    let full_list = [mungaite::group(0); 16];
    let records = [
        group(&(960..1024).collect::<Vec<u16>>()),
        draft.groups[0].clone(),
        draft.groups[draft.groups.len() - 1].clone(),
        allow(1, mungaite::group(2), 3, 4, 0),
        transition(1, 2, 3),
        constraint(1, 1, 1, 1, 2, &full_list),
    ];
    for record in records {
        for room in [0, record.len() - 1, record.len(), record.len() + 200] {
            let rest: Vec<u8> = (0..room).map(|n| n as u8 ^ 0x5A).collect();
            pair.add(&[&image[..], &rest].concat(), &record)?;
        }
    }
    Ok(())
}

/// The policy as it is; with its last group a twin of its first, which all of its records may name; and with every
/// other
/// group a twin of the one before.
fn convert(pair: &Pair, case: u64) -> Outcome {
    let mut draft = policy(case / 3);
    let last = draft.groups.len() - 1;
    match case % 3 {
        0 => {}
        1 => draft.groups[last] = draft.groups[0].clone(),
        _ => (0..last).step_by(2).for_each(|n| draft.groups[n + 1] = draft.groups[n].clone()),
    }
    let image = draft.image();
    pair.check(&image)?;
    pair.convert(&image, &vec![0x5A; image.len() + 3])?;
    pair.convert(&image, &vec![0x5A; image.len() - 1])
}

/// One query of each rule asked, and one more.
fn permit(pair: &Pair, case: u64) -> Outcome {
    let draft = policy(case);
    let mut input = draft.image();
    input.extend(queries(&draft).into_iter().chain([query(0, 0, 0, 0)]).flat_map(|query| query.to_bytes()));
    pair.permit(&input)
}
