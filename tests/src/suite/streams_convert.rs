//! The program `convert` and inputs that come in pieces or from a file, and that are long: what it writes, what it says
//! on standard error, and how it ends.

use super::converts::OLD;
use super::limits::largest;
use super::streams_compile::{from_file, from_pieces};
use crate::compare::{equal, hex, Outcome, Pair};
use crate::engine::Engine;
use crate::runner::{Cases, Count};

/// The new image of `OLD`: groups of 7, 20 and 21, and 8. Group 2 and group 4 became group 0, 3 became 1, and 5 became
/// 2.
#[rustfmt::skip]
pub const NEW: [u8; 85] = [
    0x01, 0x00, 0x55, 0x00, 0x03, 0x00, 0x03, 0x00, 0x02,
    0x04, 0x01, 0x00, 0x07,
    0x06, 0x01, 0x00, 0x14, 0x00, 0x15,
    0x04, 0x01, 0x00, 0x08,
    0x0B, 0x02, 0x80, 0x02, 0x80, 0x01, 0x00, 0x05, 0x00, 0x01, 0x01,
    0x08, 0x03, 0x80, 0x00, 0x80, 0x00, 0x80, 0x01,
    0x0B, 0x02, 0x80, 0x01, 0x00, 0x07, 0x80, 0x05, 0x80, 0x04, 0x00,
    0x15, 0x04, 0x00, 0x05, 0x00, 0x01, 0x80, 0x02, 0x80, 0x01, 0x02,
    0x80, 0x00, 0x80, 0x01, 0x80, 0x02, 0x00, 0x07, 0x80, 0x00,
    0x0B, 0x04, 0x00, 0x05, 0x00, 0x01, 0x80, 0x00, 0x00, 0x14, 0x00,
];

/// Sizes that a program may read at once, and how long an input of zeros behind an image may be.
const BLOCKS: [usize; 9] = [512, 1024, 2048, 4096, 8192, 16_384, 32_768, 32_769, 55_560];
const LENGTHS: [usize; 7] = [65_535, 65_536, 65_537, 131_072, 200_000, 1_000_000, 10_000_000];

pub const TESTS: &[Cases] = &[
    Cases { name: "streams/convert-pieces", count: Count::Listed(OLD.len() as u64 + 1), run: pieces },
    Cases { name: "streams/convert-blocks", count: Count::Listed(BLOCKS.len() as u64), run: blocks },
    Cases { name: "streams/convert-long-input", count: Count::Listed(LENGTHS.len() as u64), run: long_input },
];

/// Case n: the first n bytes, a pause, and the rest; and the same with a byte more.
fn pieces(_: &Pair, case: u64) -> Outcome {
    for (behind, expected) in [(&[][..], Ok(NEW.to_vec())), (&[0], Err("R 3 0\n".to_string()))] {
        let image = [&OLD, behind].concat();
        let (first, rest) = image.split_at(case as usize);
        let said = from_pieces(Engine::new().converter(), &[first, rest])?;
        equal("convert", said, expected, || format!("{} in two", hex(&image)))?;
    }
    Ok(())
}

/// The largest image, in two pieces and from a file.
fn blocks(_: &Pair, case: u64) -> Outcome {
    let image = largest().image();
    let (first, rest) = image.split_at(BLOCKS[case as usize]);
    let said = from_pieces(Engine::new().converter(), &[first, rest])?;
    equal("convert", said, Ok(image.clone()), || "the largest image in two".to_string())?;
    let said = from_file(Engine::new().converter(), 1000 + case, &image)?;
    equal("convert", said, Ok(image.clone()), || "the largest image from a file".to_string())
}

/// An input that is longer than an image can be, whatever its length field says.
fn long_input(_: &Pair, case: u64) -> Outcome {
    let length = LENGTHS[case as usize];
    for (first, line) in [(OLD, "R 3 0\n"), ([2; OLD.len()], "R 2 0\n"), ([1; OLD.len()], "R 3 0\n")] {
        let input = [&first[..], &vec![0; length - OLD.len()]].concat();
        let shown = || format!("{length} bytes");
        equal("convert", from_pieces(Engine::new().converter(), &[&input])?, Err(line.to_string()), shown)?;
        equal("convert", from_file(Engine::new().converter(), 2000 + case, &input)?, Err(line.to_string()), shown)?;
    }
    Ok(())
}
