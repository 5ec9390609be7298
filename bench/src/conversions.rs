//! Images converted by both engines.

use crate::cases::twins::Conversion;
use crate::contest::compare_written;
use crate::measure::{least, Effort};
use crate::ours;
use crate::table::{nanoseconds, FIRST};
use mungaite::LARGEST;
use std::hint::black_box;

pub fn print(conversions: &[Conversion], effort: Effort) {
    println!(
        "\nImages converted: convert, its check included; 2.0 or less is wanted beside the check of the same image\n"
    );
    println!(
        "{:FIRST$} {:>12} {:>12} {:>6} {:>12} {:>9}",
        "image", "ours", "hand-written", "ratio", "our check", "to check"
    );
    for conversion in conversions {
        let [ours, its, check] = conversion.times(effort);
        println!(
            "{:FIRST$} {:>12} {:>12} {:>6.2} {:>12} {:>9.2}",
            conversion.name,
            nanoseconds(ours),
            nanoseconds(its),
            ours / its,
            nanoseconds(check),
            ours / check
        );
    }
}

impl Conversion {
    /// Compares what is written, then times ours and the hand-written engine, and our check of the old image.
    fn times(&self, effort: Effort) -> [f64; 3] {
        self.compare();
        let (mut buffer, mut other) = (vec![0; LARGEST], vec![0; LARGEST]);
        least(
            effort,
            [
                &mut || _ = black_box(ours::convert(black_box(&self.old), black_box(&mut buffer))),
                &mut || _ = black_box(hand_written::convert(black_box(&self.old), black_box(&mut other))),
                &mut || _ = black_box(ours::check(black_box(&self.old))),
            ],
        )
    }

    /// Ends the program where an engine does not write the new image, or writes past it.
    fn compare(&self) {
        let ours = |buffer: &mut [u8]| ours::convert(&self.old, buffer);
        let its = |buffer: &mut [u8]| hand_written::convert(&self.old, buffer);
        compare_written(self.name, &self.new, 1 << 32 | self.new.len() as u64, ours, its);
    }
}
