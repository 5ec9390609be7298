//! Policies as text, built by both engines.

use crate::cases::texts::Text;
use crate::contest::compare_written;
use crate::measure::{least, Effort};
use crate::ours;
use crate::table::{nanoseconds, FIRST};
use mungaite::LARGEST;
use std::hint::black_box;

pub fn print(texts: &[Text], effort: Effort) {
    println!("\nPolicies as text: build; 1,000,000 or less is wanted of the largest\n");
    println!(
        "{:FIRST$} {:>9} {:>9} {:>12} {:>12} {:>6} {:>14}",
        "text", "rows", "bytes", "ours", "hand-written", "ratio", "ours, MB/s"
    );
    for text in texts {
        let [ours, its] = text.times(effort);
        println!(
            "{:FIRST$} {:>9} {:>9} {:>12} {:>12} {:>6.2} {:>14.0}",
            text.name,
            text.rows,
            text.text.len(),
            nanoseconds(ours),
            nanoseconds(its),
            ours / its,
            text.text.len() as f64 / ours * 1e3
        );
    }
}

impl Text {
    /// Compares what is built, then times ours and the hand-written engine.
    fn times(&self, effort: Effort) -> [f64; 2] {
        self.compare();
        let (mut buffer, mut other) = (vec![0; LARGEST], vec![0; LARGEST]);
        least(
            effort,
            [&mut || _ = black_box(ours::build(black_box(&self.text), black_box(&mut buffer))), &mut || {
                _ = black_box(hand_written::build(black_box(&self.text), black_box(&mut other)))
            }],
        )
    }

    /// Ends the program where an engine does not build the image, or writes past it.
    fn compare(&self) {
        let ours = |buffer: &mut [u8]| ours::build(&self.text, buffer);
        let its = |buffer: &mut [u8]| hand_written::build(&self.text, buffer);
        compare_written(self.name, &self.image, self.image.len() as u64, ours, its);
    }
}
