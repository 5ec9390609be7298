//! Old images, on what the engine makes of them: the new image is one without twins, and queries get the same answers.

use super::texts::room;
use crate::compare::{equal, hex, same_bytes, Outcome, Pair};
use crate::draft::Draft;
use crate::generate::{old_case, OldCase};
use crate::runner::{Cases, Count};
use crate::subject::Subject;
use mungaite::{Query, Section};

pub const ONCE: Cases = Cases { name: "convert/once", count: Count::Random(5_000), run: once };
pub const ANSWERS: Cases = Cases { name: "convert/answers", count: Count::Random(1_500), run: answers };

pub const TESTS: &[Cases] = &[ONCE, ANSWERS];

/// How many groups of a policy are asked for, the last among them.
const ASKED: usize = 10;

/// The new image has each group once, in the order in which they first stand, and as many rules and constraints, of the
/// same kinds; it is accepted, and converted again it stays. Without twins the image was it already.
fn once(pair: &Pair, seed: u64) -> Outcome {
    let draft = old_case(seed).draft;
    let (old, shown) = (draft.image(), || hex(&draft.image()));
    let mut buffer = room(old.len() + 9);
    let new = converted(pair, &old, &mut buffer)?.to_vec();
    equal("check", pair.engine.check(&new), Ok(()), shown)?;
    let mut different: Vec<Vec<u8>> = Vec::new();
    for group in &draft.groups {
        if !different.contains(group) {
            different.push(group.clone());
        }
    }
    equal("groups", records(pair.engine, &new, Section::Groups), different, shown)?;
    for section in [Section::Rules, Section::Constraints] {
        let heads = |records: &[Vec<u8>]| records.iter().map(|record| [record[0], record[1]]).collect::<Vec<_>>();
        let now = heads(&records(pair.engine, &new, section));
        equal("kinds and lengths", now, heads(draft.of(section)), shown)?;
    }
    same_bytes("past the new image", &buffer[new.len()..], &room(old.len() + 9)[new.len()..], shown)?;
    if new.len() == old.len() {
        same_bytes("without twins", &new, &old, shown)?;
    }
    same_bytes("converted again", converted(pair, &new, &mut room(new.len()))?, &new, shown)
}

/// Every query over groups and some basic types: the decision as it is defined on the old image, and the engine's on
/// the
/// new one, with references changed to the group that has the members.
fn answers(pair: &Pair, seed: u64) -> Outcome {
    let OldCase { draft, queries, basics } = old_case(seed);
    let old = draft.image();
    let new = converted(pair, &old, &mut room(old.len()))?.to_vec();
    let policy = pair.model.old_policy(&old).map_err(|refusal| format!("{refusal} for {}", hex(&old)))?;
    let groups = records(pair.engine, &new, Section::Groups);
    for query in every_query(&draft, &queries, &basics) {
        let after =
            follow(&draft, &groups, query).ok_or_else(|| format!("{query:?} names no group of {}", hex(&new)))?;
        let expected = pair.model.answer(&policy, query);
        equal("decide", pair.engine.decide(&new, after), expected, || format!("{query:?} on {}", hex(&old)))?;
    }
    Ok(())
}

/// The queries themselves, and each pair of types, with the class, the action and the word of one of them.
pub fn every_query(draft: &Draft, queries: &[Query], basics: &[u16]) -> Vec<Query> {
    let count = draft.groups.len();
    let groups = (0..count).rev().step_by(count.div_ceil(ASKED).max(1)).map(|n| mungaite::group(n as u16));
    let fields: Vec<u16> = groups.chain(basics.iter().copied()).collect();
    let pairs = fields.iter().flat_map(|&source| fields.iter().map(move |&destination| (source, destination)));
    let of_pairs = pairs.zip(queries.iter().cycle());
    let made = of_pairs.map(|((source, destination), query)| Query { source, destination, ..*query });
    made.chain(queries.iter().copied()).collect()
}

/// The query with its references changed: the new groups, by their records.
pub fn follow(draft: &Draft, new: &[Vec<u8>], query: Query) -> Option<Query> {
    let field = |field: u16| match field.checked_sub(mungaite::group(0)) {
        None => Some(field),
        Some(n) => {
            let there = new.iter().position(|group| *group == draft.groups[usize::from(n)])?;
            Some(mungaite::group(there as u16))
        }
    };
    Some(Query { source: field(query.source)?, destination: field(query.destination)?, ..query })
}

/// The new image of an old one, by the engine.
pub fn converted<'b>(pair: &Pair, old: &[u8], buffer: &'b mut [u8]) -> Result<&'b [u8], String> {
    let said = pair.engine.convert(old, buffer);
    let length = said.map_err(|refusal| format!("refused: {refusal}\n    for {}", hex(old)))?;
    buffer.get(..length).ok_or(format!("{length} bytes said\n    for {}", hex(old)))
}

/// A section's records, as the engine gives them.
pub fn records(engine: &dyn Subject, image: &[u8], section: Section) -> Vec<Vec<u8>> {
    (0..).map_while(|n| engine.record(image, section, n).ok()).map(|place| image[place].to_vec()).collect()
}
