//! Rows under different words, as a run and as queries of the program: what a row gets goes by its own word, whatever
//! words came before it.

use super::no;
use super::run::{as_rows, unfit, FIT};
use super::small::*;
use crate::compare::{Outcome, Pair};
use crate::sample::{query, under, SAMPLE};
use crate::subject::Answer;
use mungaite::{Query, Refusal, Run};

/// What is asked, an image, the rows, what the run says, their answers, and their lines.
type Row = (&'static str, fn() -> Vec<u8>, &'static [Query], Result<Run, Refusal>, &'static [Answer], &'static str);

/// `ASKED` under words of switches 0, 1 and 2, and under all.
const W0: Query = under(0, ASKED);
const W1: Query = under(1, ASKED);
const W2: Query = under(2, ASKED);
const W3: Query = under(3, ASKED);
const W4: Query = under(4, ASKED);
const W7: Query = under(7, ASKED);
const ALL: Query = under(0xFFFF_FFFF, ASKED);

#[rustfmt::skip]
pub const ROWS: &[Row] = &[
    // No rule names a switch.
    ("the sample, other words", || SAMPLE.to_vec(),
        &[query(10, 21, 5, 1), under(1, query(10, 21, 5, 1)), under(0xFFFF_FFFF, query(20, 30, 5, 2)),
            under(0x8000_0000, query(12, 20, 9, 9))],
        FIT, &[p(0), p(0), p(1), p(2)], "P 0\nP 0\nP 1\nP 2\n"),
    ("the sample, denied, other words", || SAMPLE.to_vec(),
        &[query(13, 21, 5, 1), under(0xFFFF_FFFF, query(13, 21, 5, 1)), under(1, query(13, 21, 5, 1))],
        unfit(0), &[n(1, 0), n(1, 0), n(1, 0)], "N 1 0\nN 1 0\nN 1 0\n"),
    ("a separation that fails, other words", || found(&[other(9, 1), other(9, 2)], &[separation(1, 2)]),
        &[W0, ALL, W0, W1],
        unfit(0), &[u(0, 0), u(0, 0), u(0, 0), u(0, 0)], "U 0 0\nU 0 0\nU 0 0\nU 0 0\n"),
    ("a separation that holds, other words", || found(&[other(8, 1), other(9, 2)], &[separation(1, 2)]),
        &[W0, ALL, W0, W1],
        FIT, &[p(0), p(0), p(0), p(0)], "P 0\nP 0\nP 0\nP 0\n"),
    // The cover and the steps.
    ("a rule that waits: off, on, off, on", || policy(&[], &[waits(0, 1, 2)], &[]), &[W0, W1, W0, W1],
        unfit(0), &[n(0, 0), p(0), n(0, 0), p(0)], "N 0 0\nP 0\nN 0 0\nP 0\n"),
    ("a rule that waits: on, off, on", || policy(&[], &[waits(0, 1, 2)], &[]), &[W1, W0, W1],
        unfit(1), &[p(0), n(0, 0), p(0)], "P 0\nN 0 0\nP 0\n"),
    ("two rules that wait", || policy(&[], &[waits(0, 1, 2), waits(1, 1, 2)], &[]), &[W1, W2, W3, W2, W1],
        FIT, &[p(0), p(1), p(0), p(1), p(0)], "P 0\nP 1\nP 0\nP 1\nP 0\n"),
    ("steps that come and go", || policy(&[], &[on(3, 4), waits(0, 1, 4)], &[]), &[W0, W1, W0],
        unfit(0), &[n(1, 0), n(2, 1), n(1, 0)], "N 1 0\nN 2 1\nN 1 0\n"),
    ("switches of both halves", || policy(&[], &[waits(16, 1, 2), waits(0, 1, 2)], &[]),
        &[W1, under(0x0001_0000, ASKED), W1, under(0x0001_0001, ASKED), W2],
        unfit(4), &[p(1), p(0), p(1), p(0), n(0, 0)], "P 1\nP 0\nP 1\nP 0\nN 0 0\n"),
    // A separation, a roster and a companion, each with a rule that waits for switch 0.
    ("separation: on, off, on", separated, &[W1, W0, W1], unfit(0), &[u(0, 0), p(0), u(0, 0)], "U 0 0\nP 0\nU 0 0\n"),
    ("separation: off, on, off", separated, &[W0, W1, W0], unfit(1), &[p(0), u(0, 0), p(0)], "P 0\nU 0 0\nP 0\n"),
    ("roster: on, off, on", listed, &[W1, W0, W1], unfit(0), &[u(0, 0), p(0), u(0, 0)], "U 0 0\nP 0\nU 0 0\n"),
    ("roster: off, on, off", listed, &[W0, W1, W0], unfit(1), &[p(0), u(0, 0), p(0)], "P 0\nU 0 0\nP 0\n"),
    ("companion: on, off, on", accompanied, &[W1, W0, W1], unfit(1), &[p(0), u(0, 0), p(0)], "P 0\nU 0 0\nP 0\n"),
    ("companion: off, on, off", accompanied, &[W0, W1, W0], unfit(0), &[u(0, 0), p(0), u(0, 0)], "U 0 0\nP 0\nU 0 0\n"),
    ("separation: the same word again", separated, &[W1, W1, W0, W0, W1, W1], unfit(0),
        &[u(0, 0), u(0, 0), p(0), p(0), u(0, 0), u(0, 0)], "U 0 0\nU 0 0\nP 0\nP 0\nU 0 0\nU 0 0\n"),
    ("separation: other switches change", separated, &[W1, W3, ALL, W1, W0, W2, under(0xFFFF_FFFE, ASKED), W0],
        unfit(0),
        &[u(0, 0), u(0, 0), u(0, 0), u(0, 0), p(0), p(0), p(0), p(0)],
        "U 0 0\nU 0 0\nU 0 0\nU 0 0\nP 0\nP 0\nP 0\nP 0\n"),
    ("separation: another word and its switch", separated, &[W0, W3, W2, W1], unfit(1), &[p(0), u(0, 0), p(0), u(0, 0)],
        "P 0\nU 0 0\nP 0\nU 0 0\n"),
    // The separation fails under switch 0, the roster under switch 1, the companion without switch 2.
    ("each in turn", each, &[W4, W1, W4, W2, W4, W7, W4], unfit(1),
        &[p(0), u(0, 0), p(0), u(0, 1), p(0), u(0, 0), p(0)], "P 0\nU 0 0\nP 0\nU 0 1\nP 0\nU 0 0\nP 0\n"),
    ("each in turn, the highest first", each, &[W0, W2, W3, W2, W0, W4], unfit(0),
        &[u(0, 2), u(0, 1), u(0, 0), u(0, 1), u(0, 2), p(0)], "U 0 2\nU 0 1\nU 0 0\nU 0 1\nU 0 2\nP 0\n"),
    // Three words and four, in turn and back: no word has what was found under another.
    ("separation: a third word", separated, &[W1, W0, W3, W0, W1, W2, W3], unfit(0),
        &[u(0, 0), p(0), u(0, 0), p(0), u(0, 0), p(0), u(0, 0)], "U 0 0\nP 0\nU 0 0\nP 0\nU 0 0\nP 0\nU 0 0\n"),
    ("separation: a third word, which is off", separated, &[W1, W3, W0, W3, W2, W1], unfit(0),
        &[u(0, 0), u(0, 0), p(0), u(0, 0), p(0), u(0, 0)], "U 0 0\nU 0 0\nP 0\nU 0 0\nP 0\nU 0 0\n"),
    ("roster: a third word", listed, &[W0, W1, W2, W1, W0, W3, W0], unfit(1),
        &[p(0), u(0, 0), p(0), u(0, 0), p(0), u(0, 0), p(0)], "P 0\nU 0 0\nP 0\nU 0 0\nP 0\nU 0 0\nP 0\n"),
    ("roster: a third word, which is off", listed, &[W1, W3, W0, W3, W2, W1], unfit(0),
        &[u(0, 0), u(0, 0), p(0), u(0, 0), p(0), u(0, 0)], "U 0 0\nU 0 0\nP 0\nU 0 0\nP 0\nU 0 0\n"),
    ("companion: a third word, which is off", accompanied, &[W1, W3, W0, W3, W2, W1], unfit(2),
        &[p(0), p(0), u(0, 0), p(0), u(0, 0), p(0)], "P 0\nP 0\nU 0 0\nP 0\nU 0 0\nP 0\n"),
    ("each by three words in turn", each, &[W4, W1, W2, W4, W1, W2, W4], unfit(1),
        &[p(0), u(0, 0), u(0, 1), p(0), u(0, 0), u(0, 1), p(0)], "P 0\nU 0 0\nU 0 1\nP 0\nU 0 0\nU 0 1\nP 0\n"),
    ("two words, a third, and back", each, &[W4, W0, W4, W0, W2, W0, W4, W2, W4], unfit(1),
        &[p(0), u(0, 2), p(0), u(0, 2), u(0, 1), u(0, 2), p(0), u(0, 1), p(0)],
        "P 0\nU 0 2\nP 0\nU 0 2\nU 0 1\nU 0 2\nP 0\nU 0 1\nP 0\n"),
    // Rows between that meet no constraint, under another word.
    ("denied rows between", separated, &[W1, under(0, ask(7, 7)), W1, under(1, ask(7, 7)), W0, under(1, ask(7, 7)), W0],
        unfit(0),
        &[u(0, 0), n(1, 0), u(0, 0), n(1, 0), p(0), n(1, 0), p(0)], "U 0 0\nN 1 0\nU 0 0\nN 1 0\nP 0\nN 1 0\nP 0\n"),
    ("refused rows between", separated, &[W1, under(0, ask(1024, 2)), W1, under(1, ask(1, 1024)), W0], unfit(0),
        &[u(0, 0), no(8, 0), u(0, 0), no(9, 0), p(0)], "U 0 0\nR 8 0\nU 0 0\nR 9 0\nP 0\n"),
    ("rows of another action between", separated,
        &[W1, under(0, query(1, 2, 5, 9)), W1, under(0, query(1, 2, 5, 9)), W0, W1], unfit(0),
        &[u(0, 0), p(0), u(0, 0), p(0), p(0), u(0, 0)], "U 0 0\nP 0\nU 0 0\nP 0\nP 0\nU 0 0\n"),
    ("a denied row brings the word", separated, &[W1, under(0, ask(7, 7)), W0], unfit(0), &[u(0, 0), n(1, 0), p(0)],
        "U 0 0\nN 1 0\nP 0\n"),
    ("a refused row brings the word", listed, &[W1, under(0, ask(1024, 2)), W0], unfit(0), &[u(0, 0), no(8, 0), p(0)],
        "U 0 0\nR 8 0\nP 0\n"),
];

pub fn run(pair: &Pair, case: u64) -> Outcome {
    let (what, image, queries, said, answers, lines) = ROWS[case as usize];
    as_rows(pair, what, &image(), queries, said, answers, lines)
}

/// 64 rows, each under the other word than the row before, for each predicate.
pub fn in_turn(pair: &Pair, case: u64) -> Outcome {
    let (image, first, answers, lines) = match case {
        0 => (separated(), 0, [u(0, 0), p(0)], "U 0 0\nP 0\n"),
        1 => (listed(), 0, [u(0, 0), p(0)], "U 0 0\nP 0\n"),
        _ => (accompanied(), 1, [p(0), u(0, 0)], "P 0\nU 0 0\n"),
    };
    as_rows(pair, "64 rows", &image, &[W1, W0].repeat(32), unfit(first), &answers.repeat(32), &lines.repeat(32))
}

/// A transition that covers 1 to 2, more rules, and constraints.
fn found(more: &[Vec<u8>], constraints: &[Vec<u8>]) -> Vec<u8> {
    policy(&[], &[&[trans(1, 2)], more].concat(), constraints)
}

/// 9 reaches 2, and 1 while switch 0 is on.
fn separated() -> Vec<u8> {
    found(&[other_waits(0, 9, 1), other(9, 2)], &[separation(1, 2)])
}

/// 9, which is not listed, reaches 2 while switch 0 is on.
fn listed() -> Vec<u8> {
    found(&[other_waits(0, 9, 2)], &[roster(1, 2, &[1])])
}

/// 2 reaches 1 while switch 0 is on.
fn accompanied() -> Vec<u8> {
    found(&[other_waits(0, 2, 1)], &[companion(1, 2)])
}

/// 9 reaches 2, and 1 while switch 0 is on; 8, which is not listed, reaches 2 while switch 1 is on; 2 reaches 1 while
/// switch 2 is on.
fn each() -> Vec<u8> {
    let rules = [other_waits(0, 9, 1), other(9, 2), other_waits(1, 8, 2), other_waits(2, 2, 1)];
    found(&rules, &[separation(1, 2), roster(1, 2, &[9]), companion(1, 2)])
}
