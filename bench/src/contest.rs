//! One policy and its queries, put to both engines; and an image that both write.

use crate::measure::{least, Effort};
use crate::ours;
use hand_written::{check, decide, decide_checked, Prepared};
use mungaite::{Kind, Query, LARGEST};
use std::fmt::Debug;
use std::hint::black_box;
use std::process::exit;

#[derive(Clone)]
pub struct Case {
    pub name: String,
    pub image: Vec<u8>,
    pub queries: Vec<Query>,
}

/// Nanoseconds of one piece of work.
pub struct Figures {
    pub work: &'static str,
    pub ours: f64,
    pub hand_written: f64,
    pub prepared: Option<f64>,
}

impl Case {
    /// The queries that get one decision.
    pub fn only(mut self, kind: Kind) -> Case {
        self.queries.retain(|query| decide(&self.image, *query).is_ok_and(|decision| decision.kind() == kind));
        self
    }

    /// Compares the answers to every query, then times; a decision's figure is the mean over the queries.
    pub fn run(&self, effort: Effort) -> [Figures; 3] {
        self.compare();
        let image = self.image.as_slice();
        let prepared = Prepared::new(image);
        let times = least(
            effort,
            [
                &mut || _ = black_box(ours::check(black_box(image))),
                &mut || _ = black_box(check(black_box(image))),
                &mut || self.each(ours::decide),
                &mut || self.each(decide),
                &mut || self.each(decide_checked),
                &mut || self.each(|_, query| prepared.decide(query)),
                &mut || drop(black_box(Prepared::new(black_box(image)))),
            ],
        );
        let [our_check, its_check, our_both, its_both, its_decide, prepared_decide, prepare] = times;
        let count = self.queries.len() as f64;
        let figures = |work, ours, hand_written, prepared| Figures { work, ours, hand_written, prepared };
        [
            figures("check", our_check, its_check, Some(its_check + prepare)),
            figures("check + decide", our_both / count, its_both / count, None),
            figures("decide", our_both / count - our_check, its_decide / count, Some(prepared_decide / count)),
        ]
    }

    fn each<T>(&self, decide: impl Fn(&[u8], Query) -> T) {
        for query in &self.queries {
            black_box(decide(black_box(&self.image), black_box(*query)));
        }
    }

    /// Ends the program where the engines differ.
    pub fn compare(&self) {
        if mungaite::check(&self.image).is_err() || check(&self.image).is_err() {
            self.fail("the image is refused");
        }
        let prepared = Prepared::new(&self.image);
        for &query in &self.queries {
            let ours = mungaite::decide(&self.image, query);
            let answers = [decide(&self.image, query), decide_checked(&self.image, query), prepared.decide(query)];
            if answers != [ours; 3] {
                self.fail(&format!("{query:?}: {ours:?}, and {answers:?}"));
            }
        }
    }

    pub fn fail(&self, what: &str) -> ! {
        fail(&self.name, what)
    }
}

/// Ends the program where an engine does not write the image or writes past it, or where ours answers another number.
pub fn compare_written<E: Debug + PartialEq>(
    name: &str,
    image: &[u8],
    number: u64,
    ours: impl Fn(&mut [u8]) -> u64,
    its: impl Fn(&mut [u8]) -> Result<usize, E>,
) {
    let [mut expected, mut our_buffer, mut its_buffer] = [(); 3].map(|()| vec![77; LARGEST + 1]);
    expected[..image.len()].copy_from_slice(image);
    let (answer, said) = (ours(&mut our_buffer), its(&mut its_buffer));
    if answer != number || said != Ok(image.len()) || our_buffer != expected || its_buffer != expected {
        fail(name, &format!("{answer:#x}, and {said:?}: not the image"));
    }
}

fn fail(name: &str, what: &str) -> ! {
    eprintln!("{name}: {what}");
    exit(1)
}
