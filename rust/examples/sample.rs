//! Decides some queries on a small policy, one by one and as a run, looks up the rule nearest to a denied one, adds a
//! rule and asks again, and adds one that waits for a switch.

use mungaite::{add, decide, group, image, record, run, Condition, Decision, Query, Refusal, Section};

#[rustfmt::skip]
const SAMPLE: [u8; 80] = [
    0x01, 0x00, 0x50, 0x00, 0x01, 0x00, 0x04, 0x00, 0x02,
    0x06, 0x01, 0x00, 0x14, 0x00, 0x15,
    0x0B, 0x02, 0x00, 0x0A, 0x80, 0x00, 0x00, 0x05, 0x00, 0x01, 0x01,
    0x0B, 0x02, 0x00, 0x14, 0x00, 0x1E, 0x00, 0x05, 0x00, 0x02, 0x01,
    0x08, 0x03, 0x00, 0x0C, 0x00, 0x14, 0x00, 0x05,
    0x0B, 0x02, 0x00, 0x0D, 0x00, 0x15, 0x00, 0x05, 0x00, 0x01, 0x00,
    0x0D, 0x04, 0x00, 0x05, 0x00, 0x01, 0x00, 0x0A, 0x00, 0x15, 0x02, 0x00, 0x0A,
    0x0B, 0x04, 0x00, 0x05, 0x00, 0x02, 0x00, 0x14, 0x00, 0x1E, 0x01,
];

/// Allow group 0, which is 20 and 21, at 20: class 5, action 3, on. It shares 20 with rule 1, which lets 20 at 30.
const RULE: [u8; 11] = [11, 2, 128, 0, 0, 20, 0, 5, 0, 3, 1];

/// The switch of the cleaning hour. While it is on, allow 15 at 30: class 5, action 4.
const CLEANING: u8 = 0;
const WAITING: [u8; 11] = [11, 2, 0, 15, 0, 30, 0, 5, 0, 4, Condition::Switch(CLEANING).byte()];

fn main() -> Result<(), Refusal> {
    println!("10 to group 0: {}", decide(&SAMPLE, Query::new(10, group(0), 5, 1))?);
    println!("13 to 21: {}", decide(&SAMPLE, Query::new(13, 21, 5, 1))?);
    println!("20 to 30: {}", decide(&SAMPLE, Query::new(20, 30, 5, 2))?);
    print_denied(&SAMPLE, Query::new(10, 21, 5, 2))?;
    if let Err(refusal) = decide(&SAMPLE, Query::new(1024, 21, 5, 1)) {
        println!("1024 to 21: {refusal}");
    }

    let rows = [Query::new(10, group(0), 5, 1), Query::new(12, 20, 9, 9), Query::new(20, 30, 5, 2)];
    print_run(&SAMPLE, rows)?;

    let mut buffer = [0; 128];
    buffer[..SAMPLE.len()].copy_from_slice(&SAMPLE);
    let grown = print_added(&mut buffer, &RULE)?;
    println!("20 to 30: {}", decide(grown, Query::new(20, 30, 5, 2))?);
    print_run(grown, rows)?;

    let grown = print_added(&mut buffer, &WAITING)?;
    let query = Query::new(15, 30, 5, 4);
    print_denied(grown, query)?;
    print_run(grown, [query, query.with_switch(CLEANING)])
}

/// Adds a rule to the image that a buffer starts with, and gives the new image.
fn print_added<'b>(buffer: &'b mut [u8], rule: &[u8]) -> Result<&'b [u8], Refusal> {
    let number = add(buffer, rule)?;
    let grown = image(buffer).expect("an image that was added to is whole");
    println!("rule {number} is {:?}", record(grown, Section::Rules, number)?);
    Ok(grown)
}

/// Asks a query and, where it is denied, gives the one rule to look at first, and the switch that would let it through.
fn print_denied(image: &[u8], query: Query) -> Result<(), Refusal> {
    let decision = decide(image, query)?;
    println!("{} to {}, action {}: {decision}", query.source, query.destination, query.action);
    let Decision::NotPermitted { nearest: Some(nearest) } = decision else { return Ok(()) };
    println!("rule {} is {:?}", nearest.rule, record(image, Section::Rules, nearest.rule)?);
    let with_all = decide(image, Query { switches: u32::MAX, ..query })?;
    if let Decision::Permitted { rule } | Decision::UnKnown { rule, .. } = with_all {
        if let Some(condition) = Condition::of(record(image, Section::Rules, rule)?) {
            println!("rule {rule} would cover it, and waits for {condition}");
        }
    }
    Ok(())
}

/// Asks the rows at once: what the run says, then each row's own answer.
fn print_run<const ROWS: usize>(image: &[u8], rows: [Query; ROWS]) -> Result<(), Refusal> {
    let mut answers = [Ok(Decision::NotPermitted { nearest: None }); ROWS];
    println!("{ROWS} rows: {}", run(image, &rows, &mut answers)?);
    for (row, answer) in answers.iter().enumerate() {
        match answer {
            Ok(decision) => println!("    row {row}: {decision}"),
            Err(refusal) => println!("    row {row}: {refusal}"),
        }
    }
    Ok(())
}
