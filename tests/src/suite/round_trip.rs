//! Adding an accepted policy's records to the empty policy gives it back byte for byte, and bytes past it stay.

use super::limits::largest;
use crate::compare::{equal, hex, same_bytes, Outcome, Pair};
use crate::draft::Draft;
use crate::generate::policy_case;
use crate::random::Random;
use crate::runner::{Cases, Count};
use crate::sample::{EMPTY, SAMPLE};
use mungaite::Section;

pub const RANDOM: Cases = Cases { name: "round-trip/random", count: Count::Random(5_000), run: random };
pub const MIXED: Cases = Cases { name: "round-trip/mixed", count: Count::Random(5_000), run: mixed };
const SHEET: Cases = Cases { name: "round-trip/sample", count: Count::Listed(300), run: sample };
const LONGEST: Cases = Cases { name: "round-trip/longest", count: Count::Listed(1), run: longest };

pub const TESTS: &[Cases] = &[RANDOM, MIXED, SHEET, LONGEST];

/// The records in order, as the engine gives them.
fn random(pair: &Pair, seed: u64) -> Outcome {
    let draft = policy_case(seed);
    in_order(pair, &draft.image(), (seed % 50) as usize)?;
    equal("records", records(pair, &draft.image())?, draft.records().cloned().collect(), || hex(&draft.image()))
}

/// Case n is the sample, with n bytes to spare.
fn sample(pair: &Pair, case: u64) -> Outcome {
    in_order(pair, &SAMPLE, case as usize)
}

/// The longest image, in a buffer of its own length.
fn longest(pair: &Pair, _: u64) -> Outcome {
    in_order(pair, &largest().image(), 0)
}

fn in_order(pair: &Pair, image: &[u8], spare: usize) -> Outcome {
    let (mut buffer, expected) = buffers(image, spare);
    for record in records(pair, image)? {
        let added = pair.engine.add(&mut buffer, &record);
        added.map_err(|refusal| format!("{} refused: {refusal}", hex(&record)))?;
    }
    same_bytes("round trip", &buffer, &expected, || hex(image))
}

/// The records of each section in order, but the sections mixed, so that later sections move. A record that refers to
/// a group that is not yet there is refused, and a group is added in its place.
fn mixed(pair: &Pair, seed: u64) -> Outcome {
    let draft = policy_case(seed);
    let image = draft.image();
    let (mut buffer, expected) = buffers(&image, (seed % 50) as usize);
    let random = &mut Random::new(seed);
    let mut next = [0; 3];
    while let Some(section) = unfinished(random, &draft, next) {
        let record = &draft.of(section)[next[section as usize]];
        match pair.engine.add(&mut buffer, record) {
            Ok(n) => equal("add", usize::from(n), next[section as usize], || hex(&image))?,
            Err(refusal) if refusal.number == 11 && next[0] < draft.groups.len() => {
                add_group(pair, &mut buffer, &draft.groups[next[0]])?;
                next[0] += 1;
                continue;
            }
            Err(refusal) => return Err(format!("{} refused: {refusal}", hex(record))),
        }
        next[section as usize] += 1;
    }
    same_bytes("round trip", &buffer, &expected, || hex(&image))
}

/// A section that has records left.
fn unfinished(random: &mut Random, draft: &Draft, next: [usize; 3]) -> Option<Section> {
    let mut sections = Section::ALL.to_vec();
    sections.retain(|section| next[*section as usize] < draft.of(*section).len());
    (!sections.is_empty()).then(|| random.pick(&sections))
}

fn add_group(pair: &Pair, buffer: &mut [u8], group: &[u8]) -> Outcome {
    pair.engine.add(buffer, group).map(drop).map_err(|refusal| format!("{} refused: {refusal}", hex(group)))
}

/// The empty policy in a buffer for the image and some bytes to spare; and that buffer with the image in it.
fn buffers(image: &[u8], spare: usize) -> (Vec<u8>, Vec<u8>) {
    let rest: Vec<u8> = (0..image.len() + spare).map(|n| (n * 7) as u8).collect();
    let empty = [&EMPTY[..], &rest[EMPTY.len()..]].concat();
    let full = [image, &rest[image.len()..]].concat();
    (empty, full)
}

/// The records of an accepted image, in order, as the engine gives them.
fn records(pair: &Pair, image: &[u8]) -> Result<Vec<Vec<u8>>, String> {
    let mut records = Vec::new();
    for section in Section::ALL {
        for n in 0.. {
            match pair.engine.record(image, section, n) {
                Ok(place) => records.push(image[place].to_vec()),
                Err(refusal) if refusal.number == 14 => break,
                Err(refusal) => return Err(format!("record {n} of {section:?} refused: {refusal}")),
            }
        }
    }
    Ok(records)
}
