//! The program `permit`, over pipes: wall time with its start, the least of some runs.

use crate::contest::Case;
use std::env;
use std::hint::black_box;
use std::io::{self, Write};
use std::path::PathBuf;
use std::process::{exit, Command, Stdio};
use std::thread;
use std::time::Instant;

pub struct Program(PathBuf);

impl Program {
    /// The program that PERMIT names.
    pub fn find() -> Result<Program, String> {
        let path = env::var_os("PERMIT").map(PathBuf::from).ok_or("set PERMIT to the path of the program permit")?;
        match path.is_file() {
            true => Ok(Program(path)),
            false => Err(format!("there is no {} (PERMIT)", path.display())),
        }
    }

    /// How the time grows with the queries: the case's, over and over.
    pub fn growth(&self, case: &Case, runs: usize) {
        println!("\nThe program permit, policy of {}\n", case.name);
        println!("{:>10} {:>12} {:>16}", "queries", "wall ms", "queries a second");
        for count in [1_000, 10_000, 100_000] {
            let ours = self.time(&input(case, count), runs);
            println!("{count:>10} {ours:>12.2} {:>16.0}", count as f64 / ours * 1e3);
        }
    }

    /// Many queries on one policy. The hand-written engine answers them from memory, with the policy unpacked once, and
    /// writes the same lines.
    pub fn many<'a>(&self, cases: impl IntoIterator<Item = &'a (Case, usize)>, runs: usize) {
        println!("\nMany queries on one policy: the program permit, milliseconds\n");
        println!("{:40} {:>10} {:>12} {:>12} {:>6}", "policy", "queries", "permit", "hand-written", "ratio");
        for (case, count) in cases {
            let input = input(case, *count);
            let ours = self.time(&input, runs);
            let its = least(runs, || drop(black_box(hand_written::permit(black_box(&input)))));
            println!("{:40} {count:>10} {ours:>12.2} {its:>12.2} {:>6.2}", case.name, ours / its);
        }
    }

    /// What more queries cost where each meets 256 constraints that hold.
    pub fn held(&self, cases: &[Case], runs: usize) {
        println!("\n256 constraints that apply and hold, largest policy: the program permit, milliseconds\n");
        println!("{:40} {:>10} {:>10} {:>10} {:>9}", "policy", "no query", "1 query", "64", "64 to 1");
        for case in cases {
            let [none, one, many] = [0, 1, 64].map(|count| self.time(&input(case, count), runs));
            println!("{:40} {none:>10.3} {one:>10.3} {many:>10.3} {:>9.2}", case.name, many / one);
        }
    }

    /// Milliseconds for an input. Ends this program where the output is not what the hand-written engine writes.
    fn time(&self, input: &[u8], runs: usize) -> f64 {
        let expected = hand_written::permit(input);
        let mut outputs = Vec::new();
        let time = least(runs, || outputs.push(self.output(input)));
        for output in outputs {
            match output {
                Ok(output) if output == expected.as_bytes() => {}
                Ok(_) => self.fail("its output is not the hand-written engine's"),
                Err(error) => self.fail(&error.to_string()),
            }
        }
        time
    }

    /// The input is written by a thread of its own: the program may answer before it has read everything.
    fn output(&self, input: &[u8]) -> io::Result<Vec<u8>> {
        let mut child = Command::new(&self.0).stdin(Stdio::piped()).stdout(Stdio::piped()).spawn()?;
        let stdin = child.stdin.take();
        thread::scope(|scope| {
            let writer = scope.spawn(move || stdin.map_or(Ok(()), |mut pipe| pipe.write_all(input)));
            let output = child.wait_with_output()?.stdout;
            writer.join().expect("writing does not panic").map(|()| output)
        })
    }

    fn fail(&self, what: &str) -> ! {
        eprintln!("{}: {what}", self.0.display());
        exit(1)
    }
}

/// The image, and so many queries: the case's, over and over.
fn input(case: &Case, count: usize) -> Vec<u8> {
    let queries = case.queries.iter().cycle().take(count).flat_map(|query| query.to_bytes());
    case.image.iter().copied().chain(queries).collect()
}

/// Milliseconds of the fastest run.
fn least(runs: usize, mut work: impl FnMut()) -> f64 {
    let times = (0..runs).map(|_| {
        let start = Instant::now();
        work();
        start.elapsed().as_secs_f64() * 1e3
    });
    times.fold(f64::INFINITY, f64::min)
}
