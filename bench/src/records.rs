//! The last record of each section, found by both engines.

use crate::contest::Case;
use crate::measure::{least, Effort};
use crate::ours;
use crate::table::{nanoseconds, FIRST};
use mungaite::Section;
use std::hint::black_box;

pub fn print(cases: &[Case], effort: Effort) {
    println!("\nThe last record of a section: record, its check included\n");
    println!("{:FIRST$} {:14} {:>12} {:>12} {:>6}", "policy", "section", "ours", "hand-written", "ratio");
    for case in cases {
        for (line, section) in Section::ALL.into_iter().enumerate() {
            let [ours, its] = times(case, section, effort);
            println!(
                "{:FIRST$} {:14} {:>12} {:>12} {:>6.2}",
                if line == 0 { &case.name } else { "" },
                format!("{section:?}").to_lowercase(),
                nanoseconds(ours),
                nanoseconds(its),
                ours / its
            );
        }
    }
}

/// Compares the records that are given, as parts of the image, and that there is none behind them; then times.
fn times(case: &Case, section: Section, effort: Effort) -> [f64; 2] {
    let image = case.image.as_slice();
    let count_at = 3 + 2 * section as usize;
    let count = u16::from_be_bytes([image[count_at], image[count_at + 1]]);
    for n in [count - 1, count] {
        let ours = mungaite::record(image, section, n).map(<[u8]>::as_ptr_range);
        let its = hand_written::record(image, section, n).map(|part| image[part].as_ptr_range());
        if ours != its || ours.is_ok() != (n < count) {
            case.fail(&format!("{section:?} {n}: {ours:?}, and {its:?}"));
        }
    }
    least(
        effort,
        [&mut || _ = black_box(ours::record(black_box(image), section, count - 1)), &mut || {
            _ = black_box(hand_written::record(black_box(image), section, count - 1))
        }],
    )
}
