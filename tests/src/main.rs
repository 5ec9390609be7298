//! Tests of two engines against an independent model of the documents. README.md says how to run them.

mod by_hand;
mod compare;
mod engine;
mod filter;
mod generate;
mod model;
mod numbers;
mod options;
mod random;
mod runner;
mod subject;
mod suite;

use mungaite_tests::{draft, sample, text};
use options::{Options, USAGE};
use runner::Run;
use std::process::ExitCode;

fn main() -> ExitCode {
    let options = match Options::read(std::env::args().skip(1)) {
        Ok(options) => options,
        Err(what) => {
            eprintln!("{what}\n{USAGE}");
            return ExitCode::from(2);
        }
    };
    println!("start seed {}, {}", options.start, if options.long { "long" } else { "quick" });
    let mut run = Run::new(options);
    suite::all(&mut run);
    ExitCode::from(u8::from(!run.finish()))
}
