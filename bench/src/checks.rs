//! The check, of policies whose groups are much alike.

use crate::contest::Case;
use crate::measure::{least, Effort};
use crate::ours;
use crate::table::{nanoseconds, FIRST};
use std::hint::black_box;

pub fn print(cases: &[Case], effort: Effort) {
    println!("\nGroups that are much alike, and no twins: check\n");
    println!("{:FIRST$} {:>9} {:>12} {:>12} {:>6}", "policy", "bytes", "ours", "hand-written", "ratio");
    for case in cases {
        case.compare();
        let image = case.image.as_slice();
        let [ours, its] = least(
            effort,
            [&mut || _ = black_box(ours::check(black_box(image))), &mut || {
                _ = black_box(hand_written::check(black_box(image)))
            }],
        );
        println!(
            "{:FIRST$} {:>9} {:>12} {:>12} {:>6.2}",
            case.name,
            image.len(),
            nanoseconds(ours),
            nanoseconds(its),
            ours / its
        );
    }
}
