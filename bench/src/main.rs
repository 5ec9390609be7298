//! Mungaite against a hand-written engine: the same work, in one run.

mod cases;
mod checks;
mod contest;
mod conversions;
mod measure;
mod ours;
mod program;
mod records;
mod rows;
mod table;
mod texts;

use cases::constraints::held;
use cases::search::{self, search};
use cases::sizes::{self, limit, middle, sample};
use cases::switched;
use cases::twins;
use measure::Effort;
use program::Program;
use std::env;
use std::process::exit;

fn main() {
    let arguments: Vec<String> = env::args().skip(1).collect();
    let (effort, runs) = match arguments.iter().map(String::as_str).collect::<Vec<_>>()[..] {
        [] => (Effort::FULL, 3),
        ["--quick"] => (Effort::QUICK, 1),
        _ => {
            eprintln!("usage: bench/run [--quick]");
            exit(2);
        }
    };
    println!("Nanoseconds, the least of up to {} samples.", effort.samples);
    let sizes = [sample(), middle(), limit()];
    table::print("Three sizes of policy, a mix of queries", &sizes, effort);
    let searches = [
        search("uncovered, 1024 rules".to_string(), 256, 1024, false),
        search("covered by the last of them".to_string(), 256, 1024, true),
    ];
    let held = held();
    table::print("The longest searches", searches.iter().chain(&held), effort);
    table::print(
        "Growth with the rules: uncovered, 256 groups",
        &[128, 256, 512, 1024].map(|rules| search(format!("{rules} rules"), 256, rules, false)),
        effort,
    );
    table::print(
        "Growth with the groups: uncovered, 1024 rules",
        &[32, 64, 128, 256].map(|groups| search(format!("{groups} groups"), groups, 1024, false)),
        effort,
    );
    table::print_decisions(
        "Denied queries, each with its nearest rule: decide; a ratio of 1.0 or less is wanted",
        sizes::denied().iter().chain(&search::denied()),
        effort,
    );
    table::print_decisions("Permitted queries: decide", &sizes::permitted(), effort);
    table::print_decisions("UnKnown queries: decide", &sizes::unknown(), effort);
    table::print_decisions(
        "Rules that wait for switches, all on but where it is said: decide",
        &switched::decided(),
        effort,
    );
    records::print(&sizes, effort);
    rows::print(&sizes, effort);
    rows::print_held("2.0 or less is wanted of those that ask the rules", &held, effort);
    rows::print_held("rules that wait for switches, and words", &switched::rows(), effort);
    texts::print(&cases::texts::all(), effort);
    checks::print(&twins::checked(), effort);
    conversions::print(&twins::conversions(), effort);
    match Program::find() {
        Ok(permit) => {
            permit.growth(&limit(), runs);
            let [middle_in_turn, limit_in_turn] = switched::mixes();
            let in_turn = [(middle_in_turn, 50_000), (limit_in_turn, 1_000)];
            let many = [(sample(), 100_000), (middle(), 50_000), (limit(), 1_000)];
            permit.many(many.iter().chain(&in_turn), 5 * runs);
            permit.held(&held, 10 * runs);
        }
        Err(what) => println!("\nThe program permit is left out: {what}"),
    }
}
