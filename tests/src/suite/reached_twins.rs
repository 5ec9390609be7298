//! The random inputs are not hollow where there are twins: every number and place of them, every buffer, and every
//! answer
//! to a query that names one.

use super::converts::CONVERT;
use super::old::{every_query, ANSWERS};
use super::random::{ADD, CHECK};
use super::tally::Tally;
use crate::generate::{add_case, check_case, convert_case, old_case, OldCase};
use crate::model::Model;
use crate::runner::{Finding, Run};
use crate::subject::Subject;
use mungaite::{Refusal, Section};

/// Of converted images: the refusal's number; 0 stands for an accepted call.
pub fn convert(run: &Run) -> Finding {
    let mut tally = Tally::new();
    for seed in run.seeds(&CONVERT) {
        let (image, mut buffer) = convert_case(seed);
        tally.see(run.engine.convert(&image, &mut buffer).map_or_else(|refusal| refusal.number, |_| 0));
    }
    tally.judge((0..=7).chain([13]).collect())
}

/// Of images that are well formed: the sets of twins, 2 for more; the largest set, 3 for more; and whether the last
/// group
/// is one.
pub fn sets(run: &Run) -> Finding {
    let mut tally = Tally::new();
    for seed in run.seeds(&CONVERT) {
        let groups = groups(&convert_case(seed).0);
        let sizes = groups.iter().map(|group| groups.iter().filter(|other| *other == group).count());
        let first = |n: &usize| !groups[..*n].contains(&groups[*n]);
        let sets = (0..groups.len()).filter(first).filter(|&n| groups[n + 1..].contains(&groups[n])).count();
        let last = groups.len().checked_sub(1).is_some_and(|last| !first(&last));
        tally.see((sets.min(2), sizes.max().unwrap_or(1).min(3), last));
    }
    let with = [1, 2].into_iter().flat_map(|sets| [2, 3].map(|size| (sets, size)));
    tally
        .judge(with.flat_map(|(sets, size)| [(sets, size, false), (sets, size, true)]).chain([(0, 1, false)]).collect())
}

/// The groups of a well-formed image; none of another.
fn groups(image: &[u8]) -> Vec<Vec<u8>> {
    Model::RIGHT.read_old(image).map_or(Vec::new(), |records| records.of(Section::Groups).to_vec())
}

/// Of images with twins: the buffer beside the new image and the old.
pub fn buffers(run: &Run) -> Finding {
    let mut tally = Tally::new();
    for seed in run.seeds(&CONVERT) {
        let (image, buffer) = convert_case(seed);
        let mut enough = vec![0; image.len()];
        let Ok(new) = Model::RIGHT.convert(&image, &mut enough) else { continue };
        if new < image.len() {
            tally.see(match buffer.len() {
                0 => "no byte",
                length if length + 1 == new => "one byte short",
                length if length < new => "short",
                length if length == new => "exact",
                length if length < image.len() => "between",
                length if length == image.len() => "as the old image",
                _ => "longer",
            });
        }
    }
    tally.judge(vec!["no byte", "one byte short", "short", "exact", "between", "as the old image", "longer"])
}

/// Of checked images with twins: where the named one stands, and whether a further one follows.
pub fn named(run: &Run) -> Finding {
    let mut tally = Tally::new();
    for seed in run.seeds(&CHECK) {
        let image = check_case(seed);
        let Err(Refusal { number: 19, place }) = run.engine.check(&image) else { continue };
        let groups = groups(&image);
        let places = groups.iter().scan(9, |next, group| Some(std::mem::replace(next, *next + group.len())));
        let n = places.take_while(|start| *start < usize::from(place)).count();
        let more = (n + 1..groups.len()).any(|later| groups[..later].contains(&groups[later]));
        tally.see(match n {
            1 => ("second", more),
            _ if n + 1 == groups.len() => ("last", more),
            _ => ("another", more),
        });
    }
    tally.judge(vec![("second", false), ("second", true), ("another", false), ("another", true), ("last", false)])
}

/// Of added twins: whether the section is full, or the buffer short.
pub fn added(run: &Run) -> Finding {
    let mut tally = Tally::new();
    for seed in run.seeds(&ADD) {
        let (mut buffer, record) = add_case(seed);
        let number = run.engine.add(&mut buffer, &record).map_or_else(|refusal| refusal.number, |_| 0);
        let image = || usize::from(u16::from_be_bytes([buffer[1], buffer[2]]));
        match number {
            20 if buffer[3] == 1 => tally.see("20, full"),
            20 if image() + record.len() > buffer.len() => tally.see("20, short"),
            20 => tally.see("20"),
            12 if record[1] == 1 => tally.see("12 of a group"),
            _ => {}
        }
    }
    tally.judge(vec!["20", "20, full", "20, short", "12 of a group"])
}

/// Of queries on old images: the decision, and what becomes of the groups that they name.
pub fn answers(run: &Run) -> Finding {
    let mut tally = Tally::new();
    for seed in run.seeds(&ANSWERS) {
        let OldCase { draft, queries, basics } = old_case(seed);
        let Ok(policy) = Model::RIGHT.old_policy(&draft.image()) else { continue };
        let groups = &draft.groups;
        let goes = |n: usize| groups[..n].contains(&groups[n]);
        for query in every_query(&draft, &queries, &basics) {
            let Ok(decision) = Model::RIGHT.answer(&policy, query) else { continue };
            for field in [query.source, query.destination].into_iter().filter(|field| *field >= 32768) {
                let n = usize::from(field - 32768);
                let what = if goes(n) {
                    "goes"
                } else if (0..n).any(goes) {
                    "moves"
                } else {
                    "stays"
                };
                tally.see((decision.kind(), what));
            }
        }
    }
    use mungaite::Kind::{NotPermitted, Permitted, UnKnown};
    let kinds = [NotPermitted, Permitted, UnKnown].into_iter();
    tally.judge(kinds.flat_map(|kind| ["goes", "moves", "stays"].map(|what| (kind, what))).collect())
}
