//! The random inputs are not hollow where a separation is asked: sources have something in common in every way.

use super::random::DECIDE;
use super::tally::Tally;
use crate::draft::SEPARATION;
use crate::generate::decide_case;
use crate::model::{Model, Slip};
use crate::runner::{Finding, Run};

/// Mistakes that want more than a basic type in common.
const ASKING_MORE: [Slip; 3] = [Slip::SeparationByWithin, Slip::SeparationBySameSet, Slip::SeparationOfTwoRules];

/// Of separations within whose arguments a covered query is: what the sources of a rule to the first argument and of
/// one to the second have in common, at the most. The mistaken models tell.
pub fn sources(run: &Run) -> Finding {
    let mut tally = Tally::new();
    for seed in run.seeds(&DECIDE) {
        let (image, queries) = decide_case(seed);
        for query in queries {
            let verdicts = Model::RIGHT.verdicts(&image, query);
            let concerns = |n: &usize| verdicts[*n].predicate == SEPARATION && verdicts[*n].concerns;
            let concerning: Vec<usize> = (0..verdicts.len()).filter(concerns).collect();
            if concerning.is_empty() {
                continue;
            }
            let [within, same_set, two_rules] = ASKING_MORE.map(|slip| Model::with(slip).verdicts(&image, query));
            for n in concerning {
                tally.see(match verdicts[n].holds {
                    true => "nothing",
                    _ if within[n].holds => "a part",
                    _ if same_set[n].holds => "all of one",
                    _ if two_rules[n].holds => "all, in one rule",
                    _ => "all of both",
                });
            }
        }
    }
    tally.judge(vec!["nothing", "a part", "all of one", "all, in one rule", "all of both"])
}
