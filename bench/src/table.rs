//! Tables on standard output.

use crate::contest::{Case, Figures};
use crate::measure::Effort;

/// The width of the first column.
pub const FIRST: usize = 40;

/// Runs the cases and prints three lines for each.
pub fn print<'a>(title: &str, cases: impl IntoIterator<Item = &'a Case>, effort: Effort) {
    println!("\n{title}\n");
    println!(
        "{:FIRST$} {:14} {:>12} {:>12} {:>6} {:>12}",
        "policy and queries", "work", "ours", "hand-written", "ratio", "prepared"
    );
    for case in cases {
        for (line, figures) in case.run(effort).iter().enumerate() {
            print_line(if line == 0 { &case.name } else { "" }, figures);
        }
    }
}

/// Runs the cases and prints one line for each, of the work "decide".
pub fn print_decisions<'a>(title: &str, cases: impl IntoIterator<Item = &'a Case>, effort: Effort) {
    println!("\n{title}\n");
    println!("{:FIRST$} {:>12} {:>12} {:>6} {:>12}", "policy and queries", "ours", "hand-written", "ratio", "prepared");
    for case in cases {
        let [_, _, decide] = case.run(effort);
        println!("{:FIRST$} {}", case.name, columns(&decide));
    }
}

fn print_line(name: &str, figures: &Figures) {
    println!("{name:FIRST$} {:14} {}", figures.work, columns(figures));
}

fn columns(figures: &Figures) -> String {
    format!(
        "{:>12} {:>12} {:>6.2} {:>12}",
        nanoseconds(figures.ours),
        nanoseconds(figures.hand_written),
        figures.ours / figures.hand_written,
        figures.prepared.map_or(String::new(), nanoseconds)
    )
}

/// Three figures or more, in groups of three.
pub fn nanoseconds(value: f64) -> String {
    if value.abs() < 100.0 {
        return format!("{value:.1}");
    }
    let digits = format!("{:.0}", value.abs());
    let mut grouped = String::from(if value < 0.0 { "-" } else { "" });
    for (index, digit) in digits.chars().enumerate() {
        if index > 0 && (digits.len() - index) % 3 == 0 {
            grouped.push(',');
        }
        grouped.push(digit);
    }
    grouped
}
