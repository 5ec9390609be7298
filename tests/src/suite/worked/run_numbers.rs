//! The C function of a run, whose rows are numbers: only it can be asked with a row that is not whole.

use super::small::{policy, waits};
use crate::compare::{equal, Outcome, Pair};
use crate::numbers;
use crate::sample::{EMPTY, SAMPLE};

const FIT: u64 = 0x0000_0001_0000_0000;
const ROW_COUNT: u64 = 0x0000_0002_0010_0000;
const ANSWER_COUNT: u64 = 0x0000_0002_0011_0000;

/// What a slot holds before a call.
const UNANSWERED: u64 = 0x5A5A_5A5A_5A5A_5A5A;

/// A row that is Permitted on the sample: 10, 21, 5, 1 and no switch.
const ROW: [u16; 6] = [10, 21, 5, 1, 0, 0];

/// How many numbers and slots are lent, and the answer; each row is `ROW`.
pub const ROWS: &[(usize, usize, u64)] = &[
    (0, 0, ROW_COUNT),
    (1, 0, ROW_COUNT),
    (1, 1, ROW_COUNT),
    (4, 1, ROW_COUNT),
    (5, 0, ROW_COUNT),
    (5, 1, ROW_COUNT),
    (6, 0, ANSWER_COUNT),
    (6, 1, FIT),
    (6, 2, ANSWER_COUNT),
    (7, 1, ANSWER_COUNT),
    (8, 1, ANSWER_COUNT),
    (8, 2, ANSWER_COUNT),
    (11, 1, ANSWER_COUNT),
    (11, 2, ANSWER_COUNT),
    (12, 2, FIT),
    (12, 3, ANSWER_COUNT),
    (256, 64, ANSWER_COUNT),
    (383, 63, ANSWER_COUNT),
    (383, 64, ANSWER_COUNT),
    (384, 64, FIT),
    (384, 96, ANSWER_COUNT),
    (384, 384, ANSWER_COUNT),
    (385, 64, ANSWER_COUNT),
    (388, 64, ANSWER_COUNT),
    (389, 64, ANSWER_COUNT),
    (389, 65, ANSWER_COUNT),
    (390, 64, ROW_COUNT),
    (390, 65, ROW_COUNT),
    (391, 65, ROW_COUNT),
    (65_542, 1, ROW_COUNT),
    (65_920, 64, ROW_COUNT),
];

/// With the sample, and with its last byte cut: the image's causes come first.
pub fn counts(_: &Pair, case: u64) -> Outcome {
    let (count, slots, said) = ROWS[case as usize];
    let shown = || format!("{count} numbers, {slots} slots");
    let rows: Vec<u16> = ROW.into_iter().cycle().take(count).collect();
    let mut answers = vec![UNANSWERED; slots];
    equal("cut", numbers::run(&SAMPLE[..79], &rows, &mut answers), 0x0000_0002_0003_0000, shown)?;
    equal("cut", &answers, &vec![UNANSWERED; slots], shown)?;
    equal("run", numbers::run(&SAMPLE, &rows, &mut answers), said, shown)?;
    equal("run", answers, vec![if said == FIT { 0x0000_0001_0000_0000 } else { UNANSWERED }; slots], shown)
}

/// Every count of numbers up to 67 rows with every count of slots: 16 where there is no whole row or more than 64, then
/// 17 where the numbers are not six for each slot.
pub fn every_count(_: &Pair, count: u64) -> Outcome {
    let rows: Vec<u16> = ROW.into_iter().cycle().take(count as usize).collect();
    for slots in 0..=67 {
        let said = match count / 6 {
            0 | 65.. => ROW_COUNT,
            _ if count != 6 * slots => ANSWER_COUNT,
            _ => FIT,
        };
        let mut answers = vec![UNANSWERED; slots as usize];
        equal("run", numbers::run(&SAMPLE, &rows, &mut answers), said, || format!("{count} numbers, {slots} slots"))?;
    }
    Ok(())
}

/// Each kind of answer as its number. With allow 10 to 30, class 5, action 3, on, as rule 4.
pub fn kinds(_: &Pair, _: u64) -> Outcome {
    let mut image = [&SAMPLE[..56], &[11, 2, 0, 10, 0, 30, 0, 5, 0, 3, 1], &SAMPLE[56..]].concat();
    (image[2], image[6]) = (91, 5);
    #[rustfmt::skip]
    let rows = [
        12, 20, 9, 9, 0, 0,
        20, 30, 5, 2, 0, 0,
        13, 21, 5, 1, 0, 0,
        10, 30, 5, 9, 0, 0,
        1024, 21, 5, 1, 0, 0,
        10, 1024, 5, 1, 0, 0,
    ];
    let mut answers = [UNANSWERED; 6];
    equal("run", numbers::run(&image, &rows, &mut answers), 1, || "each kind of answer".to_string())?;
    let expected = [
        0x0000_0001_0000_0002,
        0x0000_0003_0001_0001,
        0x0000_0000_0001_0000,
        0x0000_0000_0004_0004,
        0x0000_0002_0008_0000,
        0x0000_0002_0009_0000,
    ];
    equal("answers", answers, expected, || "each kind of answer".to_string())?;
    equal("run", numbers::run(&image, &rows[12..], &mut answers[..4]), 0, || "row 0 is not Permitted".to_string())?;
    equal("run", numbers::run(&EMPTY, &rows[..6], &mut answers[..1]), 0, || "no rules".to_string())?;
    equal("answers", answers[0], 0x0000_0000_0000_FFFF, || "no rules".to_string())
}

/// The high half of a row's word comes before the low half. Rule 0 waits for switch 16, rule 1 for switch 0, rule 2 for
/// switch 31.
pub fn words(_: &Pair, _: u64) -> Outcome {
    let image = policy(&[], &[waits(16, 1, 2), waits(0, 1, 2), waits(31, 1, 2)], &[]);
    #[rustfmt::skip]
    let rows = [
        1, 2, 5, 1, 1, 0,
        1, 2, 5, 1, 0, 1,
        1, 2, 5, 1, 0x8000, 0,
        1, 2, 5, 1, 0, 0x8000,
        1, 2, 5, 1, 0xFFFF, 0xFFFF,
        1, 2, 5, 1, 0xFFFE, 1,
    ];
    let mut answers = [UNANSWERED; 6];
    equal("run", numbers::run(&image, &rows, &mut answers), 3, || "halves of words".to_string())?;
    let permitted = |rule: u64| 0x0000_0001_0000_0000 + rule;
    let expected = [permitted(0), permitted(1), permitted(2), 0, permitted(0), permitted(1)];
    equal("answers", answers, expected, || "halves of words".to_string())
}
