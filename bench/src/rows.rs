//! Runs of 64 rows, put to both engines.

use crate::contest::Case;
use crate::measure::{least, Effort};
use crate::ours;
use crate::table::{nanoseconds, FIRST};
use hand_written::Prepared;
use mungaite::{Decision, Query, Refusal, Run, MOST_ROWS};
use std::hint::black_box;

type Answer = Result<Decision, Refusal>;

/// What a slot holds before its row is answered. No row gets it.
const UNANSWERED: Answer = Err(Refusal { number: 0, place: 0 });

/// A row of a run; and, as `apart`, a row of one check and 64 decisions.
pub fn print(cases: &[Case], effort: Effort) {
    println!("\nA run of 64 rows: the figures of one row\n");
    println!(
        "{:FIRST$} {:>12} {:>12} {:>6} {:>12} {:>12}",
        "policy and queries", "ours", "hand-written", "ratio", "prepared", "ours, apart"
    );
    for case in cases {
        let [ours, its, prepared, apart] = Rows::of(case).times(effort).map(|time| time / MOST_ROWS as f64);
        println!(
            "{:FIRST$} {:>12} {:>12} {:>6.2} {:>12} {:>12}",
            case.name,
            nanoseconds(ours),
            nanoseconds(its),
            ours / its,
            nanoseconds(prepared),
            nanoseconds(apart)
        );
    }
}

/// A whole run beside one decision, where the constraints of a case apply to each row.
pub fn print_held(title: &str, cases: &[Case], effort: Effort) {
    println!("\n256 constraints that apply and hold: 64 rows beside one decision; {title}\n");
    println!(
        "{:FIRST$} {:>12} {:>12} {:>7} {:>12} {:>6}",
        "policy", "one decision", "64 rows", "64 to 1", "hand-written", "ratio"
    );
    for case in cases {
        let [one, ours, its] = Rows::of(case).times_beside_one(effort);
        println!(
            "{:FIRST$} {:>12} {:>12} {:>7.2} {:>12} {:>6.2}",
            case.name,
            nanoseconds(one),
            nanoseconds(ours),
            ours / one,
            nanoseconds(its),
            ours / its
        );
    }
}

/// The case's queries, over and over.
struct Rows<'a> {
    case: &'a Case,
    queries: Vec<Query>,
    numbers: Vec<u16>,
}

impl Rows<'_> {
    /// The rows of a case. Ends the program where the engines' answers to them differ.
    fn of(case: &Case) -> Rows<'_> {
        let queries: Vec<Query> = case.queries.iter().copied().cycle().take(MOST_ROWS).collect();
        let numbers = |&Query { source, destination, class, action, switches }: &Query| {
            [source, destination, class, action, (switches >> 16) as u16, switches as u16]
        };
        let rows = Rows { case, numbers: queries.iter().flat_map(numbers).collect(), queries };
        rows.compare();
        rows
    }

    /// A run of ours, of the hand-written engine and of a prepared policy; then our check once and 64 decisions.
    fn times(&self, effort: Effort) -> [f64; 4] {
        let prepared = Prepared::new(&self.case.image);
        let (mut slots, mut answers, mut others) = ([0; MOST_ROWS], [UNANSWERED; MOST_ROWS], [UNANSWERED; MOST_ROWS]);
        let [ours, its, of_prepared, check, decisions] = least(
            effort,
            [
                &mut || self.run_ours(&mut slots),
                &mut || self.run_hand_written(&mut answers),
                &mut || _ = black_box(prepared.run(black_box(&self.queries), black_box(&mut others))),
                &mut || _ = black_box(ours::check(black_box(&self.case.image))),
                &mut || self.queries.iter().for_each(|query| self.decide(*query)),
            ],
        );
        [ours, its, of_prepared, decisions - (MOST_ROWS - 1) as f64 * check]
    }

    /// One decision of ours, then a run of ours and of the hand-written engine.
    fn times_beside_one(&self, effort: Effort) -> [f64; 3] {
        let (mut slots, mut answers) = ([0; MOST_ROWS], [UNANSWERED; MOST_ROWS]);
        least(
            effort,
            [&mut || self.decide(self.queries[0]), &mut || self.run_ours(&mut slots), &mut || {
                self.run_hand_written(&mut answers)
            }],
        )
    }

    fn decide(&self, query: Query) {
        black_box(ours::decide(black_box(&self.case.image), black_box(query)));
    }

    fn run_ours(&self, slots: &mut [u64]) {
        black_box(ours::run(black_box(&self.case.image), black_box(&self.numbers), black_box(slots)));
    }

    fn run_hand_written(&self, answers: &mut [Answer]) {
        _ = black_box(hand_written::run(black_box(&self.case.image), black_box(&self.queries), black_box(answers)));
    }

    /// Each run's answers are those of single decisions, and it says what they do.
    fn compare(&self) {
        let (image, queries) = (self.case.image.as_slice(), self.queries.as_slice());
        let single: Vec<Answer> = queries.iter().map(|&query| mungaite::decide(image, query)).collect();
        let unfit = single.iter().position(|answer| !matches!(answer, Ok(Decision::Permitted { .. })));
        let said = Ok(unfit.map_or(Run::Fit, |row| Run::Unfit { row }));
        let [mut ours, mut its, mut prepared] = [(); 3].map(|()| vec![UNANSWERED; MOST_ROWS]);
        let all_said = [
            mungaite::run(image, queries, &mut ours),
            hand_written::run(image, queries, &mut its),
            Prepared::new(image).run(queries, &mut prepared),
        ];
        if all_said != [said; 3] || [&ours, &its, &prepared] != [&single; 3] {
            self.case.fail("a run's answers are not those of single decisions");
        }
        let mut slots = [u64::MAX; MOST_ROWS];
        ours::run(image, &self.numbers, &mut slots);
        if !slots.into_iter().eq(queries.iter().map(|&query| ours::decide(image, query))) {
            self.case.fail("a run's numbers are not those of single decisions");
        }
    }
}
