//! Rules that wait for a switch: when they cover and which is named, the steps of a denied query, and each of the 32
//! switches for all who ask.

use super::run::{as_rows, unfit};
use super::small::*;
use crate::compare::{Outcome, Pair};
use crate::draft::{allow, switch};
use crate::sample::under;

const NONE: u32 = 0;
const ALL: u32 = 0xFFFF_FFFF;

#[rustfmt::skip]
pub const ROWS: &[Row] = &[
    // One rule and one word.
    ("switch 0 of 0", || rules(&[waits(0, 1, 2)]), under(0, ASKED), n(0, 0)),
    ("switch 0 of 1", || rules(&[waits(0, 1, 2)]), under(1, ASKED), p(0)),
    ("switch 0 of 2", || rules(&[waits(0, 1, 2)]), under(2, ASKED), n(0, 0)),
    ("switch 0 of 3", || rules(&[waits(0, 1, 2)]), under(3, ASKED), p(0)),
    ("switch 1 of 1", || rules(&[waits(1, 1, 2)]), under(1, ASKED), n(0, 0)),
    ("switch 1 of 2", || rules(&[waits(1, 1, 2)]), under(2, ASKED), p(0)),
    ("switch 1 of 3", || rules(&[waits(1, 1, 2)]), under(3, ASKED), p(0)),
    ("switch 1 of 4", || rules(&[waits(1, 1, 2)]), under(4, ASKED), n(0, 0)),
    ("switch 15 of the low half", || rules(&[waits(15, 1, 2)]), under(0x0000_FFFF, ASKED), p(0)),
    ("switch 15 of the high half", || rules(&[waits(15, 1, 2)]), under(0xFFFF_0000, ASKED), n(0, 0)),
    ("switch 16 of the low half", || rules(&[waits(16, 1, 2)]), under(0x0000_FFFF, ASKED), n(0, 0)),
    ("switch 16 of the high half", || rules(&[waits(16, 1, 2)]), under(0xFFFF_0000, ASKED), p(0)),
    ("switch 31 of 1", || rules(&[waits(31, 1, 2)]), under(1, ASKED), n(0, 0)),
    ("switch 31 of 2,147,483,647", || rules(&[waits(31, 1, 2)]), under(2_147_483_647, ASKED), n(0, 0)),
    ("switch 31 of 2,147,483,648", || rules(&[waits(31, 1, 2)]), under(2_147_483_648, ASKED), p(0)),
    ("switch 0 of 2,147,483,648", || rules(&[waits(0, 1, 2)]), under(2_147_483_648, ASKED), n(0, 0)),
    // On and off are so under every word.
    ("on, no switch", || rules(&[on(1, 2)]), under(NONE, ASKED), p(0)),
    ("on, all switches", || rules(&[on(1, 2)]), under(ALL, ASKED), p(0)),
    ("on, all but switch 31", || rules(&[on(1, 2)]), under(0x7FFF_FFFF, ASKED), p(0)),
    ("off, no switch", || rules(&[off(1, 2)]), under(NONE, ASKED), n(0, 0)),
    ("off, all switches", || rules(&[off(1, 2)]), under(ALL, ASKED), n(0, 0)),
    ("off, switch 30", || rules(&[off(1, 2)]), under(0x4000_0000, ASKED), n(0, 0)),
    // The lowest rule that covers.
    ("a rule that waits, then one on: no switch", || rules(&[waits(0, 1, 2), on(1, 2)]), under(0, ASKED), p(1)),
    ("a rule that waits, then one on: its switch", || rules(&[waits(0, 1, 2), on(1, 2)]), under(1, ASKED), p(0)),
    ("a rule on, then one that waits: its switch", || rules(&[on(1, 2), waits(0, 1, 2)]), under(1, ASKED), p(0)),
    ("two that wait: none of their switches", || rules(&[waits(1, 1, 2), waits(0, 1, 2)]), under(4, ASKED), n(0, 0)),
    ("two that wait: the second's", || rules(&[waits(1, 1, 2), waits(0, 1, 2)]), under(1, ASKED), p(1)),
    ("two that wait: the first's", || rules(&[waits(1, 1, 2), waits(0, 1, 2)]), under(2, ASKED), p(0)),
    ("two that wait: both", || rules(&[waits(1, 1, 2), waits(0, 1, 2)]), under(3, ASKED), p(0)),
    ("two that wait for the same", || rules(&[waits(3, 1, 2), waits(3, 1, 2)]), under(8, ASKED), p(0)),
    ("a group, and a rule for it that waits", || policy(&[&[1, 3]], &[on(1, 2), waits(5, G0, 2)], &[]),
        under(32, ask(G0, 2)), p(1)),
    ("a group, and a rule for a part that waits", || policy(&[&[1, 3]], &[waits(5, 1, 2)], &[]), under(32, ask(G0, 2)),
        n(1, 0)),
    ("the last of 1,024 waits: its switch", || rules(&[vec![off(1, 2); 1023], vec![waits(7, 1, 2)]].concat()),
        under(128, ASKED), p(1023)),
    ("the last of 1,024 waits: no switch", || rules(&[vec![off(1, 2); 1023], vec![waits(7, 1, 2)]].concat()),
        under(NONE, ASKED), n(0, 0)),
    // Steps: off by its switch, a rule passes none; on by it, it goes on.
    ("another source, off", || rules(&[waits(0, 3, 2)]), under(0, ASKED), n(0, 0)),
    ("another source, on", || rules(&[waits(0, 3, 2)]), under(1, ASKED), n(1, 0)),
    ("another destination, off", || rules(&[waits(0, 1, 3)]), under(0, ASKED), n(0, 0)),
    ("another destination, on", || rules(&[waits(0, 1, 3)]), under(1, ASKED), n(2, 0)),
    ("another class, off", || rules(&[allow(1, 2, 6, 1, switch(0))]), under(0, ASKED), n(0, 0)),
    ("another class, on", || rules(&[allow(1, 2, 6, 1, switch(0))]), under(1, ASKED), n(3, 0)),
    ("another action, off", || rules(&[allow(1, 2, 5, 2, switch(0))]), under(0, ASKED), n(0, 0)),
    ("another action, on", || rules(&[allow(1, 2, 5, 2, switch(0))]), under(1, ASKED), n(4, 0)),
    ("off by its switch, then a far rule", || rules(&[waits(0, 1, 2), on(3, 4)]), under(0, ASKED), n(1, 1)),
    ("a far rule, then one off by its switch", || rules(&[on(3, 4), waits(0, 1, 2)]), under(0, ASKED), n(1, 0)),
    ("off, then off by its switch", || rules(&[off(1, 2), waits(0, 1, 2)]), under(0, ASKED), n(0, 0)),
    ("off, then on by its switch and far", || rules(&[off(1, 2), waits(0, 3, 4)]), under(1, ASKED), n(1, 1)),
    ("a far rule, then a nearer one that waits: off", || rules(&[on(3, 4), waits(0, 1, 3)]), under(2, ASKED), n(1, 0)),
    ("a far rule, then a nearer one that waits: on", || rules(&[on(3, 4), waits(0, 1, 3)]), under(1, ASKED), n(2, 1)),
    ("of equal steps the lowest, be it on by its switch", || rules(&[waits(0, 3, 4), on(3, 4)]), under(1, ASKED),
        n(1, 0)),
    ("of equal steps the lowest that is on", || rules(&[waits(0, 3, 4), on(3, 4)]), under(2, ASKED), n(1, 1)),
    // A transition has no condition.
    ("a transition, no switch", || rules(&[trans(1, 2)]), under(NONE, ASKED), p(0)),
    ("a transition, all switches", || rules(&[trans(1, 2)]), under(ALL, ASKED), p(0)),
    ("a transition elsewhere, no switch", || rules(&[trans(1, 3)]), under(NONE, ASKED), n(2, 0)),
    ("a transition elsewhere, all switches", || rules(&[trans(1, 3)]), under(ALL, ASKED), n(2, 0)),
    ("off by its switch, then a transition", || rules(&[waits(0, 1, 2), trans(1, 2)]), under(0, ASKED), p(1)),
    ("on by its switch, then a transition", || rules(&[waits(0, 1, 2), trans(1, 2)]), under(1, ASKED), p(0)),
    // Constraints: a ban asks no rule; the rule that covers may itself be what another predicate finds.
    ("a ban, off by its switch", || policy(&[], &[waits(0, 1, 2)], &[ban(1, 2)]), under(0, ASKED), n(0, 0)),
    ("a ban, on by its switch", || policy(&[], &[waits(0, 1, 2)], &[ban(1, 2)]), under(1, ASKED), u(0, 0)),
    ("a ban, another switch", || policy(&[], &[on(1, 2), waits(0, 1, 2)], &[ban(1, 2)]), under(2, ASKED), u(0, 0)),
    ("a roster without the source that waits: off",
        || policy(&[], &[trans(1, 2), waits(0, 1, 2)], &[roster(1, 2, &[9])]), under(0, ASKED), p(0)),
    ("a roster without the source that waits: on",
        || policy(&[], &[trans(1, 2), waits(0, 1, 2)], &[roster(1, 2, &[9])]), under(1, ASKED), u(0, 0)),
    ("a separation of what it reaches: off",
        || policy(&[&[1, 2]], &[trans(1, 2), waits(0, 9, G0)], &[separation(1, 2)]), under(0, ASKED), p(0)),
    ("a separation of what it reaches: on", || policy(&[&[1, 2]], &[trans(1, 2), waits(0, 9, G0)], &[separation(1, 2)]),
        under(1, ASKED), u(0, 0)),
    ("a companion that waits: off, and the next holds",
        || policy(&[], &[on(1, 2), waits(0, 2, 1)], &[companion(1, 2), roster(1, 2, &[1])]), under(0, ASKED), u(0, 0)),
    ("a companion that waits: on, and the next fails",
        || policy(&[], &[on(1, 2), waits(0, 2, 1)], &[companion(1, 2), roster(1, 2, &[9])]), under(1, ASKED), u(0, 1)),
];

pub fn run(pair: &Pair, case: u64) -> Outcome {
    run_row(pair, ROWS[case as usize])
}

/// Case k: one rule waits for switch k. Switch k alone is on, all but switch k, all, none: one by one, as rows of a run
/// and as queries of the program.
pub fn each(pair: &Pair, case: u64) -> Outcome {
    let k = case as u8;
    let alone = 2_u32.pow(k.into());
    let rows = [alone, ALL - alone, ALL, NONE].map(|word| under(word, ASKED));
    let separated = [other_waits(k, 9, 1), other(9, 2)];
    let (broken, kept) = ([u(0, 0), p(0), u(0, 0), p(0)], [p(0), u(0, 0), p(0), u(0, 0)]);
    let (broken_lines, kept_lines) = ("U 0 0\nP 0\nU 0 0\nP 0\n", "P 0\nU 0 0\nP 0\nU 0 0\n");
    let policies = [
        ("cover", rules(&[waits(k, 1, 2)]), 1, [p(0), n(0, 0), p(0), n(0, 0)], "P 0\nN 0 0\nP 0\nN 0 0\n"),
        (
            "steps",
            rules(&[off(1, 2), waits(k, 3, 4)]),
            0,
            [n(1, 1), n(0, 0), n(1, 1), n(0, 0)],
            "N 1 1\nN 0 0\nN 1 1\nN 0 0\n",
        ),
        ("separation", found(&separated, separation(1, 2)), 0, broken, broken_lines),
        ("roster", found(&[other_waits(k, 9, 2)], roster(1, 2, &[1])), 0, broken, broken_lines),
        ("companion", found(&[other_waits(k, 2, 1)], companion(1, 2)), 1, kept, kept_lines),
    ];
    for (asks, image, first, answers, lines) in policies {
        let what = format!("switch {k}, {asks}");
        for (row, answer) in rows.into_iter().zip(answers) {
            super::both(pair, &what, answer, |subject| subject.decide(&image, row))?;
        }
        as_rows(pair, &what, &image, &rows, unfit(first), &answers, lines)?;
    }
    Ok(())
}

/// Case k: of 32 rules, each of which waits for the switch of its number, switch k alone is on, all up to it, all from
/// it on, none, and switch k alone again.
pub fn together(pair: &Pair, case: u64) -> Outcome {
    let image = rules(&(0..32).map(|k| waits(k, 1, 2)).collect::<Vec<_>>());
    let alone = 2_u32.pow(case as u32);
    let rows = [alone, alone - 1 + alone, ALL - (alone - 1), NONE, alone].map(|word| under(word, ASKED));
    let lowest = p(case as u16);
    let lines = format!("P {case}\nP 0\nP {case}\nN 0 0\nP {case}\n");
    as_rows(pair, "32 switches", &image, &rows, unfit(3), &[lowest, p(0), lowest, n(0, 0), lowest], &lines)
}

fn rules(records: &[Vec<u8>]) -> Vec<u8> {
    policy(&[], records, &[])
}

/// A transition that covers 1 to 2, more rules, and a constraint.
fn found(more: &[Vec<u8>], constraint: Vec<u8>) -> Vec<u8> {
    policy(&[], &[&[trans(1, 2)], more].concat(), &[constraint])
}
