//! Named tests, run one after the other and counted.

use crate::by_hand::ByHand;
use crate::compare::{Outcome, Pair};
use crate::engine::Engine;
use crate::model::Model;
use crate::options::Options;
use crate::random::case_seed;
use crate::subject::Subject;
use std::panic::{catch_unwind, AssertUnwindSafe};
use std::thread::{available_parallelism, scope};
use std::time::Instant;

/// How many times more cases a long run has.
const LONG: u64 = 40;

/// How the outcome of a case starts that ended in a panic.
pub const PANIC: &str = "panic: ";

/// A test made of cases, each of which can be run alone.
#[derive(Clone, Copy)]
pub struct Cases {
    pub name: &'static str,
    pub count: Count,
    pub run: fn(&Pair, u64) -> Outcome,
}

#[derive(Clone, Copy)]
pub enum Count {
    /// Cases 0 to n - 1.
    Listed(u64),
    /// So many cases, each from its own seed; more in a long run.
    Random(u64),
}

/// A test of the whole.
pub struct Whole {
    pub name: String,
    pub run: Box<dyn Fn(&Run) -> Finding>,
}

/// What a test of the whole found, or what is wrong.
pub type Finding = Result<String, String>;

/// One run of the tests.
pub struct Run {
    pub options: Options,
    pub engine: Engine,
    passed: usize,
    failed: usize,
}

impl Run {
    pub fn new(options: Options) -> Run {
        Run { options, engine: Engine::new(), passed: 0, failed: 0 }
    }

    pub fn pair(&self, model: Model) -> Pair<'_> {
        Pair { engine: &self.engine, model }
    }

    /// The numbers or seeds of a test's cases.
    pub fn seeds(&self, cases: &Cases) -> impl Iterator<Item = u64> {
        self.some_seeds(cases, if self.options.long { LONG } else { 1 })
    }

    /// Those of a quick run.
    pub fn quick_seeds(&self, cases: &Cases) -> impl Iterator<Item = u64> {
        self.some_seeds(cases, 1)
    }

    fn some_seeds(&self, cases: &Cases, times: u64) -> impl Iterator<Item = u64> {
        let (name, start) = (cases.name, self.options.start);
        let (count, random) = match cases.count {
            Count::Listed(count) => (count, false),
            Count::Random(count) => (times * count, true),
        };
        (0..count).map(move |case| if random { case_seed(start, name, case) } else { case })
    }

    /// A test of Mungaite.
    pub fn cases(&mut self, cases: &Cases) {
        self.count_cases(cases.name, cases, |run| &run.engine);
    }

    /// The same test of the hand-written engine, on the same inputs.
    pub fn cases_by_hand(&mut self, cases: &Cases) {
        self.count_cases(&format!("hand-written/{}", cases.name), cases, |_| &ByHand);
    }

    fn count_cases(&mut self, name: &str, cases: &Cases, subject: fn(&Run) -> &dyn Subject) {
        if !self.options.selects(name) {
            return;
        }
        let began = Instant::now();
        let pair = Pair { engine: subject(self), model: Model::RIGHT };
        let seeds: Vec<u64> = match self.options.case {
            Some(case) => vec![case],
            None => self.seeds(cases).collect(),
        };
        let result = match self.first_failure(name, cases, &pair, &seeds) {
            Some(what) => Err(what),
            None => Ok(format!("{} cases", seeds.len())),
        };
        self.count(name, result, began);
    }

    /// Each processor takes its part of the cases.
    fn first_failure(&self, name: &str, cases: &Cases, pair: &Pair, seeds: &[u64]) -> Option<String> {
        let run = |&seed: &u64| {
            let again = format!("cargo run --release -- --only {name} --seed {seed}");
            if self.options.trace {
                eprintln!("{again}");
            }
            run_case(cases, pair, seed).err().map(|what| format!("{what}\n    again: {again}"))
        };
        let threads = if self.options.trace { 1 } else { available_parallelism().map_or(1, usize::from) };
        let part = seeds.len().div_ceil(threads).max(1);
        scope(|scope| {
            let parts: Vec<_> = seeds.chunks(part).map(|part| scope.spawn(move || part.iter().find_map(run))).collect();
            parts.into_iter().find_map(|part| part.join().expect("a case's panic is caught"))
        })
    }

    pub fn whole(&mut self, whole: &Whole) {
        if !self.options.selects(&whole.name) || self.options.case.is_some() {
            return;
        }
        let began = Instant::now();
        let again = format!("cargo run --release -- --only {} --start {}", whole.name, self.options.start);
        let result = caught(|| (whole.run)(self)).map_err(|what| format!("{what}\n    again: {again}"));
        self.count(&whole.name, result, began);
    }

    fn count(&mut self, name: &str, result: Result<String, String>, began: Instant) {
        let seconds = began.elapsed().as_secs_f64();
        match result {
            Ok(note) => {
                self.passed += 1;
                println!("ok: {name} ({note}; {seconds:.2} s)");
            }
            Err(what) => {
                self.failed += 1;
                println!("FAILED: {name}\n    {what}");
            }
        }
    }

    /// Prints the last line; true where tests ran and none failed.
    pub fn finish(self) -> bool {
        println!("{} passed, {} failed", self.passed, self.failed);
        self.failed == 0 && self.passed > 0
    }
}

/// One case. A panic, the engine's or the crate's, is a failure like any other.
pub fn run_case(cases: &Cases, pair: &Pair, seed: u64) -> Outcome {
    caught(|| (cases.run)(pair, seed))
}

fn caught<T>(run: impl FnOnce() -> Result<T, String>) -> Result<T, String> {
    catch_unwind(AssertUnwindSafe(run)).unwrap_or_else(|panic| {
        let text = panic.downcast_ref::<String>().map(String::as_str);
        Err(format!("{PANIC}{}", text.or(panic.downcast_ref::<&str>().copied()).unwrap_or("no message")))
    })
}
