//! Old images: random ones, and every cut and change of one with twins, by the converter and by the check.

use crate::compare::{Outcome, Pair};
use crate::generate::convert_case;
use crate::runner::{Cases, Count};
use crate::subject::Subject;
use crate::suite::texts::room;

/// Groups of 7, 20 and 21, 7, 20 and 21, 7, and 8; rules, a transition and a roster that name each of them, and a ban.
#[rustfmt::skip]
pub const OLD: [u8; 99] = [
    0x01, 0x00, 0x63, 0x00, 0x06, 0x00, 0x03, 0x00, 0x02,
    0x04, 0x01, 0x00, 0x07,
    0x06, 0x01, 0x00, 0x14, 0x00, 0x15,
    0x04, 0x01, 0x00, 0x07,
    0x06, 0x01, 0x00, 0x14, 0x00, 0x15,
    0x04, 0x01, 0x00, 0x07,
    0x04, 0x01, 0x00, 0x08,
    0x0B, 0x02, 0x80, 0x05, 0x80, 0x03, 0x00, 0x05, 0x00, 0x01, 0x01,
    0x08, 0x03, 0x80, 0x02, 0x80, 0x00, 0x80, 0x01,
    0x0B, 0x02, 0x80, 0x01, 0x00, 0x07, 0x80, 0x05, 0x80, 0x04, 0x00,
    0x15, 0x04, 0x00, 0x05, 0x00, 0x01, 0x80, 0x05, 0x80, 0x01, 0x02,
    0x80, 0x04, 0x80, 0x03, 0x80, 0x05, 0x00, 0x07, 0x80, 0x00,
    0x0B, 0x04, 0x00, 0x05, 0x00, 0x01, 0x80, 0x02, 0x00, 0x14, 0x00,
];

const LENGTH: u64 = OLD.len() as u64;

pub const CONVERT: Cases = Cases { name: "random/convert", count: Count::Random(30_000), run: convert };

pub const TESTS: &[Cases] = &[
    CONVERT,
    Cases { name: "random/convert-program", count: Count::Random(300), run: program },
    Cases { name: "old/changes", count: Count::Listed(256 * LENGTH), run: change },
    Cases { name: "old/cuts", count: Count::Listed(LENGTH + 1), run: cut },
    Cases { name: "old/buffers", count: Count::Listed(LENGTH + 20), run: buffer },
];

fn convert(pair: &Pair, seed: u64) -> Outcome {
    let (image, buffer) = convert_case(seed);
    pair.convert(&image, &buffer)
}

fn program(pair: &Pair, seed: u64) -> Outcome {
    pair.convert_program(&convert_case(seed).0)
}

/// Case 256 p + v is the old image with value v at place p.
fn change(pair: &Pair, case: u64) -> Outcome {
    let mut image = OLD;
    image[(case / 256) as usize] = (case % 256) as u8;
    pair.check(&image)?;
    pair.convert(&image, &room(OLD.len()))
}

/// Case n is the first n bytes, with the old length field and with one that fits.
fn cut(pair: &Pair, case: u64) -> Outcome {
    let mut image = OLD[..case as usize].to_vec();
    pair.convert(&image, &room(OLD.len()))?;
    if image.len() > 2 {
        image[1..3].copy_from_slice(&(case as u16).to_be_bytes());
        pair.check(&image)?;
        pair.convert(&image, &room(OLD.len()))?;
    }
    pair.convert_program(&image)
}

/// Case n is a buffer of n bytes, for the old image and for the new one.
fn buffer(pair: &Pair, case: u64) -> Outcome {
    let mut new = room(OLD.len());
    let length = pair.model.convert(&OLD, &mut new).map_err(|refusal| format!("refused: {refusal}"))?;
    pair.convert(&OLD, &room(case as usize))?;
    pair.convert(&new[..length], &room(case as usize))
}
