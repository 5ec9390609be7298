//! Every cut and every change of one byte of the sample sheet, for every call and for the program.

use crate::compare::{Outcome, Pair};
use crate::draft::{allow, constraint, group};
use crate::runner::{Cases, Count};
use crate::sample::{QUERIES, SAMPLE};
use mungaite::Section;

const LENGTH: u64 = SAMPLE.len() as u64;

pub const TESTS: &[Cases] = &[
    Cases { name: "sample/changes", count: Count::Listed(256 * LENGTH), run: change },
    Cases { name: "sample/cuts", count: Count::Listed(LENGTH), run: cut },
    Cases { name: "sample/permit-cuts", count: Count::Listed(LENGTH + 36), run: permit_cut },
];

/// A process for each change: left out where mistaken models are searched for.
pub const PROGRAM: &[Cases] =
    &[Cases { name: "program/changes", count: Count::Listed(256 * LENGTH), run: permit_change }];

fn change(pair: &Pair, case: u64) -> Outcome {
    every_call(pair, &changed(case))
}

/// The changed sample, and then the queries.
fn permit_change(pair: &Pair, case: u64) -> Outcome {
    let queries = QUERIES.iter().flat_map(|query| query.to_bytes()).collect();
    pair.permit(&[changed(case).to_vec(), queries].concat())
}

/// Case 256 p + v is the sample with value v at place p.
fn changed(case: u64) -> [u8; SAMPLE.len()] {
    let mut image = SAMPLE;
    image[(case / 256) as usize] = (case % 256) as u8;
    image
}

/// Case n is the first n bytes, with the sample's length field and with one that fits.
fn cut(pair: &Pair, case: u64) -> Outcome {
    let mut image = SAMPLE[..case as usize].to_vec();
    every_call(pair, &image)?;
    if image.len() > 2 {
        image[1..3].copy_from_slice(&(case as u16).to_be_bytes());
        every_call(pair, &image)?;
    }
    Ok(())
}

/// Case n is the first n bytes of the sample and three queries.
fn permit_cut(pair: &Pair, case: u64) -> Outcome {
    let mut input = SAMPLE.to_vec();
    input.extend(QUERIES[..3].iter().flat_map(|query| query.to_bytes()));
    pair.permit(&input[..case as usize])
}

fn every_call(pair: &Pair, image: &[u8]) -> Outcome {
    pair.check(image)?;
    for query in QUERIES {
        pair.decide(image, query)?;
    }
    pair.run(image, &QUERIES, QUERIES.len())?;
    for (section, count) in [(Section::Groups, 1), (Section::Rules, 4), (Section::Constraints, 2)] {
        for n in 0..=count {
            pair.record(image, section, n)?;
        }
    }
    let room = [image, &[0x5A; 20]].concat();
    pair.add(image, &group(&[1, 2]))?;
    pair.add(&room, &group(&[1, 2]))?;
    pair.add(&room, &group(&[20, 21]))?;
    pair.convert(image, &[0x5A; SAMPLE.len()])?;
    pair.add(&room, &allow(1, mungaite::group(0), 5, 3, 1))?;
    pair.add(&room, &constraint(5, 1, 10, mungaite::group(1), 3, &[]))
}
