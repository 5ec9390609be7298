//! Loads an image from the time when twins were accepted, shows what became of its groups, and asks it with their new
//! numbers.

use mungaite::{add, check, convert, decide, group, record, Cause, Query, Refusal, Section};

/// Groups 0 and 1 are twins: 1 goes, 2 becomes 1, and rules and constraints follow.
#[rustfmt::skip]
const STORED: [u8; 72] = [
    0x01, 0x00, 0x48, 0x00, 0x03, 0x00, 0x03, 0x00, 0x01,
    0x06, 0x01, 0x00, 0x14, 0x00, 0x15,
    0x06, 0x01, 0x00, 0x14, 0x00, 0x15,
    0x06, 0x01, 0x00, 0x1E, 0x00, 0x1F,
    0x0B, 0x02, 0x00, 0x0A, 0x80, 0x01, 0x00, 0x05, 0x00, 0x01, 0x01,
    0x0B, 0x02, 0x00, 0x14, 0x80, 0x02, 0x00, 0x05, 0x00, 0x02, 0x01,
    0x08, 0x03, 0x00, 0x0C, 0x80, 0x00, 0x00, 0x05,
    0x0F, 0x04, 0x00, 0x05, 0x00, 0x01, 0x00, 0x0A, 0x80, 0x01, 0x02, 0x00, 0x0A, 0x80, 0x02,
];

fn main() -> Result<(), Refusal> {
    let mut buffer = [0; STORED.len()];
    if let Err(refusal) = convert(&STORED, &mut buffer[..65]) {
        println!("into 65 bytes: {refusal}");
    }
    let image = load(&STORED, &mut buffer)?;
    println!("{} bytes became {}", STORED.len(), image.len());
    for number in 0..3 {
        println!("    group {number} is now group {}", new_number(number, image));
    }
    print_records(image)?;
    for (source, old, class, action) in [(10, 1, 5, 1), (20, 2, 5, 2), (12, 0, 9, 9), (10, 2, 5, 1)] {
        let query = Query::new(source, group(new_number(old, image)), class, action);
        println!("{source} to old group {old}: {}", decide(image, query)?);
    }

    let twin = record(image, Section::Groups, 1)?;
    let mut grown = [image, &[0; 8]].concat();
    if let Err(refusal) = add(&mut grown, twin) {
        println!("group 1 once more: {refusal}");
    }
    println!("loaded once more, it is the same: {}", load(image, &mut [0; STORED.len()])? == image);
    Ok(())
}

/// An image as it was stored, or converted where it has twins.
fn load<'i>(stored: &'i [u8], buffer: &'i mut [u8]) -> Result<&'i [u8], Refusal> {
    match check(stored) {
        Err(refusal) if refusal.cause() == Some(Cause::Twin) => {
            println!("as it was stored: {refusal}");
            convert(stored, buffer)
        }
        checked => checked.map(|()| stored),
    }
}

/// The new number of an old group: that of the group with its members, of which there is one.
fn new_number(old: usize, image: &[u8]) -> u16 {
    let record = groups(&STORED).nth(old).expect("the stored image has the group");
    groups(image).position(|group| group == record).expect("the members stay") as u16
}

/// The group records of an image, one after the other: each starts with its own length.
fn groups(image: &[u8]) -> impl Iterator<Item = &[u8]> {
    let count = u16::from_be_bytes([image[3], image[4]]);
    let mut rest = &image[9..];
    (0..count).map(move |_| {
        let (record, after) = rest.split_at(usize::from(rest[0]));
        rest = after;
        record
    })
}

fn print_records(image: &[u8]) -> Result<(), Refusal> {
    for (section, count) in [(Section::Groups, 2), (Section::Rules, 3), (Section::Constraints, 1)] {
        for number in 0..count {
            println!("    {section:?} {number} is {:?}", record(image, section, number)?);
        }
    }
    Ok(())
}
