//! The random texts are not hollow: they reach every refusal at every place, by every kind of row, and every end of a
//! text.

use super::tally::Tally;
use super::texts::BUILD;
use crate::generate::build_case;
use crate::runner::{Finding, Run};
use crate::subject::{Subject, TextRefusal};

/// Where a refused row stands among the rows that are not empty.
const PLACES: [&str; 4] = ["alone", "first", "between", "last"];

/// The first words of rows, and any other.
const KINDS: [&str; 5] = ["group", "allow", "trans", "limit", "other"];

/// The refusals that the texts reach at every place; 20 needs a row before it. 12 needs a section at its limit, and the
/// tests of limits have it.
const REFUSALS: [u16; 3] = [11, 13, 18];

/// What a text of a case gets, and its rows that are not empty, each with its place.
struct Said {
    text: Vec<u8>,
    room: usize,
    said: Result<usize, TextRefusal>,
    rows: Vec<(usize, Vec<u8>)>,
}

fn said(run: &Run, seed: u64) -> Said {
    let (text, mut buffer) = build_case(seed);
    let said = run.engine.build(&text, &mut buffer);
    let mut rows = Vec::new();
    let mut place = 0;
    for row in text.split(|&byte| byte == b'\n') {
        rows.push((place, row.to_vec()));
        place += row.len() + 1;
    }
    rows.retain(|(_, row)| !row.is_empty());
    Said { text, room: buffer.len(), said, rows }
}

/// Refusals by number and by where the row stands.
pub fn places(run: &Run) -> Finding {
    let mut tally = Tally::new();
    for seed in run.seeds(&BUILD) {
        let Said { room, said, rows, .. } = said(run, seed);
        tally.see(match said {
            Ok(_) => (0, "accepted"),
            Err(refused) if room < 9 => (refused.number, "under 9"),
            Err(refused) => {
                let n = rows.iter().filter(|(place, _)| *place < refused.place).count();
                let place = match (n, n + 1 == rows.len()) {
                    (0, true) => 0,
                    (0, false) => 1,
                    (_, false) => 2,
                    (_, true) => 3,
                };
                (refused.number, PLACES[place])
            }
        });
    }
    let refused = REFUSALS.into_iter().flat_map(|number| PLACES.map(|place| (number, place)));
    let twins = [(20, "between"), (20, "last")];
    tally.judge(refused.chain(twins).chain([(0, "accepted"), (13, "under 9")]).collect())
}

/// Rows by their first word and by what they get; 0 stands for a row that is added.
pub fn kinds(run: &Run) -> Finding {
    let mut tally = Tally::new();
    for seed in run.seeds(&BUILD) {
        let Said { room, said, rows, .. } = said(run, seed);
        if room < 9 {
            continue;
        }
        for (place, row) in rows {
            let number = match said {
                Err(refused) if place > refused.place => break,
                Err(refused) if place == refused.place => refused.number,
                _ => 0,
            };
            tally.see((kind(&row), number));
        }
    }
    let known = KINDS[..4].iter().flat_map(|kind| [0, 11, 13, 18].map(|number| (*kind, number)));
    tally.judge(known.chain([("group", 20), ("other", 18)]).collect())
}

fn kind(row: &[u8]) -> &'static str {
    let first = row.split(|&byte| byte == b' ').next().unwrap_or_default();
    KINDS[KINDS.iter().position(|kind| kind.as_bytes() == first).unwrap_or(4)]
}

/// Of accepted texts: how they end, and whether they have empty rows and fill their buffer.
pub fn ends(run: &Run) -> Finding {
    let mut tally = Tally::new();
    for seed in run.seeds(&BUILD) {
        let Said { text, room, said, rows } = said(run, seed);
        if let Ok(length) = said {
            let line_feeds = text.iter().filter(|&&byte| byte == b'\n').count();
            let end = match text.last() {
                _ if rows.is_empty() => "no row",
                Some(b'\n') => "a line feed",
                _ => "no line feed",
            };
            tally.see((end, line_feeds > rows.len(), length == room));
        }
    }
    let ends = ["no row", "a line feed", "no line feed"];
    let each = [(false, false), (false, true), (true, false), (true, true)];
    tally.judge(ends.into_iter().flat_map(|end| each.map(|(empty, full)| (end, empty, full))).collect())
}
