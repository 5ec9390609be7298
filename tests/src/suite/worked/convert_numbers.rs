//! The C functions' numbers where there are twins: 19 and 20, and the converter's answers.

use super::permit::longest_with;
use super::small::*;
use crate::compare::{equal, Outcome, Pair};
use crate::numbers;
use crate::sample::SAMPLE;
use mungaite::raw::{mungaite_add, mungaite_check, mungaite_decide, mungaite_record};

type Row = (&'static str, fn() -> Vec<u8>, usize, u64);

/// What is converted, the image, the buffer's length, and the answer.
#[rustfmt::skip]
pub const ROWS: &[Row] = &[
    ("the sample", || SAMPLE.to_vec(), 80, 0x0000_0001_0000_0050),
    ("twins", twins, 17, 0x0000_0001_0000_000D),
    ("twins in a buffer that just holds the new image", twins, 13, 0x0000_0001_0000_000D),
    ("twins in 12 bytes", twins, 12, 0x0000_0002_000D_0000),
    ("twins in no byte", twins, 0, 0x0000_0002_000D_0000),
    ("the longest image", || longest_with(0, &[1]), 70_000, 0x0000_0001_0000_D909),
    ("no byte", Vec::new, 80, 0x0000_0002_0001_0000),
    ("version 0", || vec![0; 9], 80, 0x0000_0002_0002_0000),
    ("the last byte cut", || SAMPLE[..79].to_vec(), 80, 0x0000_0002_0003_0000),
    ("257 constraints", || vec![1, 0, 9, 0, 0, 0, 0, 1, 1], 80, 0x0000_0002_0004_0007),
    ("the longest image's last record", || longest_with(55_519, &[1]), 70_000, 0x0000_0002_0005_D8DE),
    ("the longest image's last field", || longest_with(55_559, &[4, 0]), 0, 0x0000_0002_0006_D907),
    ("a byte behind the last record", || vec![1, 0, 10, 0, 0, 0, 0, 0, 0, 0], 80, 0x0000_0002_0007_0009),
];

/// Two groups of 7: 17 bytes.
fn twins() -> Vec<u8> {
    policy(&[&[7], &[7]], &[], &[])
}

pub fn run(_: &Pair, case: u64) -> Outcome {
    let (what, image, length, said) = ROWS[case as usize];
    equal("convert", numbers::convert(&image(), &mut vec![0; length]), said, || what.to_string())
}

/// 19 at 13 by every C function that checks an image, and 20 by adding.
pub fn refused(_: &Pair, _: u64) -> Outcome {
    let (twins, shown) = (twins(), || "two groups of 7".to_string());
    let (image, length) = (twins.as_ptr(), twins.len());
    let mut room = [&twins[..], &[0; 20]].concat();
    let mut one = [policy(&[&[7]], &[], &[]), vec![0; 20]].concat();
    let group = [4, 1, 0, 7];
    // SAFETY: each pointer and length are those of one slice, and a slice that is written overlaps no other.
    let said = unsafe {
        [
            mungaite_check(image, length),
            mungaite_decide(7, 7, 5, 1, 0, image, length),
            mungaite_record(0, 0, image, length),
            mungaite_record(3, 0, image, length),
            mungaite_add(room.as_mut_ptr(), room.len(), group.as_ptr(), group.len()),
            mungaite_add(one.as_mut_ptr(), one.len(), group.as_ptr(), group.len()),
        ]
    };
    let twin = 0x0000_0002_0013_000D;
    equal("19 and 20", said, [twin, twin, twin, twin, twin, 0x0000_0002_0014_0000], shown)?;
    equal("run", numbers::run(&twins, &[7, 7, 5, 1, 0, 0], &mut [0]), twin, shown)
}
