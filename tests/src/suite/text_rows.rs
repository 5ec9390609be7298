//! Texts, on the engine's answers alone: a policy's records typed as rows build it again, and a refused text leaves
//! what the rows before it build.

use super::texts::room;
use crate::compare::{equal, same_bytes, typed, Outcome, Pair};
use crate::generate::{build_case, policy_case};
use crate::random::Random;
use crate::runner::{Cases, Count};
use crate::sample::EMPTY;
use crate::text::text_of;

pub const TYPED: Cases = Cases { name: "text/typed", count: Count::Random(2_000), run: typed_again };
pub const ADDED: Cases = Cases { name: "text/added", count: Count::Random(2_000), run: added };
pub const ROWS_BEFORE: Cases = Cases { name: "text/rows-before", count: Count::Random(5_000), run: rows_before };

pub const TESTS: &[Cases] = &[TYPED, ADDED, ROWS_BEFORE];

/// A policy's records in order give its image, in a buffer of its length and in one that is longer.
fn typed_again(pair: &Pair, seed: u64) -> Outcome {
    let draft = policy_case(seed);
    let (text, image) = (text_of(draft.records()), draft.image());
    let line_feed = usize::from(seed.is_multiple_of(3) && text.len() > 1);
    builds(pair, &text[..text.len() - line_feed], &image, (seed % 50) as usize)
}

/// The records of each section in order, but the sections mixed: a rule or a constraint stands behind any number of
/// groups that has those it names. Adding each to the empty policy gives the same bytes.
fn added(pair: &Pair, seed: u64) -> Outcome {
    let draft = policy_case(seed);
    let random = &mut Random::new(seed);
    let mut records: Vec<(usize, &Vec<u8>)> = (1..).zip(&draft.groups).collect();
    for record in draft.rules.iter().chain(&draft.constraints) {
        records.push((random.of(groups_named(record)..=draft.groups.len()), record));
    }
    records.sort_by_key(|&(groups, record)| (groups, record[1]));
    let mut expected = room(draft.image().len());
    expected[..EMPTY.len()].copy_from_slice(&EMPTY);
    for (_, record) in &records {
        pair.engine.add(&mut expected, record).map_err(|refusal| format!("{record:?} refused: {refusal}"))?;
    }
    builds(pair, &text_of(records.into_iter().map(|(_, record)| record)), &expected, (seed % 50) as usize)
}

/// How many groups there must be before a rule or a constraint.
fn groups_named(record: &[u8]) -> usize {
    let first = if record[1] == 4 { vec![6, 8] } else { vec![2, 4] };
    let types = first.into_iter().chain((11..record.len().saturating_sub(1)).step_by(2));
    let fields = types.map(|at| u16::from_be_bytes([record[at], record[at + 1]]));
    fields.filter(|&field| field >= 32768).map(|field| usize::from(field - 32768) + 1).max().unwrap_or(0)
}

/// A refused text: what stands before its row is not refused and leaves the same buffer, and the row is refused without
/// what follows it too.
fn rows_before(pair: &Pair, seed: u64) -> Outcome {
    let (text, lent) = build_case(seed);
    let shown = || format!("{} into {} bytes", typed(&text), lent.len());
    let mut buffer = lent.clone();
    let said = pair.engine.build(&text, &mut buffer);
    let accepted = match said {
        Err(refused) if lent.len() < 9 => {
            equal("short buffer", (refused.number, refused.place), (13, 0), shown)?;
            return same_bytes("short buffer", &buffer, &lent, shown);
        }
        Err(refused) => {
            let row = text[refused.place..].split(|&byte| byte == b'\n').next().unwrap_or_default();
            let through = &text[..refused.place + row.len()];
            equal("through the row", pair.engine.build(through, &mut lent.clone()), said, shown)?;
            &text[..refused.place]
        }
        Ok(_) => &text,
    };
    let mut before = lent.clone();
    let length = pair.engine.build(accepted, &mut before).map_err(|refused| format!("rows before: {refused:?}"))?;
    same_bytes("rows before", &buffer, &before, shown)?;
    same_bytes("bytes past the image", &buffer[length..], &lent[length..], shown)?;
    equal("image", pair.engine.check(&buffer[..length]), Ok(()), shown)
}

/// The text gives the image, and bytes past it stay.
fn builds(pair: &Pair, text: &[u8], image: &[u8], spare: usize) -> Outcome {
    let mut buffer = room(image.len() + spare);
    let expected = [image, &buffer[image.len()..]].concat();
    equal("build", pair.engine.build(text, &mut buffer), Ok(image.len()), || typed(text))?;
    same_bytes("buffer after build", &buffer, &expected, || typed(text))
}
