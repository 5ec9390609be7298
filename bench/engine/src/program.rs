//! What the program `permit` writes.

use crate::check::check_front;
use crate::format::{number, refusal};
use crate::prepared::Prepared;
use mungaite::{Decision, Nearest, Query, Refusal};
use std::fmt::Write;

/// The bytes of a query: source, destination, class and action, two each, and the switch word.
const QUERY: usize = 12;

/// The whole output for an input: an image, which is checked and unpacked once, and queries.
pub fn permit(input: &[u8]) -> String {
    let mut output = String::new();
    let length = match check_front(input) {
        Ok(length) => length,
        Err(refusal) => {
            put_line(&mut output, Err(refusal));
            return output;
        }
    };
    let (image, queries) = input.split_at(length);
    let policy = Prepared::new(image);
    let (queries, left) = queries.as_chunks();
    for bytes in queries {
        put_line(&mut output, policy.decide(query(bytes)));
    }
    if !left.is_empty() {
        put_line(&mut output, Err(refusal(15, 0)));
    }
    output
}

fn query(bytes: &[u8; QUERY]) -> Query {
    let [.., w3, w2, w1, w0] = *bytes;
    Query {
        source: number(bytes, 0),
        destination: number(bytes, 2),
        class: number(bytes, 4),
        action: number(bytes, 6),
        switches: u32::from_be_bytes([w3, w2, w1, w0]),
    }
}

fn put_line(output: &mut String, answer: Result<Decision, Refusal>) {
    let written = match answer {
        Ok(Decision::NotPermitted { nearest: None }) => writeln!(output, "N -"),
        Ok(Decision::NotPermitted { nearest: Some(Nearest { steps, rule }) }) => writeln!(output, "N {steps} {rule}"),
        Ok(Decision::Permitted { rule }) => writeln!(output, "P {rule}"),
        Ok(Decision::UnKnown { rule, constraint }) => writeln!(output, "U {rule} {constraint}"),
        Err(Refusal { number, place }) => writeln!(output, "R {number} {place}"),
    };
    written.expect("a string takes every line");
}
