//! Builds a policy from text and asks it, then tells why other texts are refused.

use mungaite::{build, check, decide, image, Query, LARGEST};

/// The sample sheet, and a rule for the cleaning hour: it is on while switch 0 is.
const TEXT: &str = "\
group 20 21

allow 10 g0 5 1 on
allow 20 30 5 2 on
trans 12 20 5
allow 13 21 5 1 off
allow 15 30 5 4 s0

limit 5 1 10 21 2 10
limit 5 2 20 30 1
";

/// Texts with a row that is refused, each for another reason.
const REFUSED: [&str; 9] = [
    "group 20 21\n\nallow 10 g0 5 1 on\nallow 20 30 5 2 On\ntrans 12 20 5\n",
    "group 20 21\r\nallow 10 g0 5 1 on\r\n",
    "group 20 21\nallow 10 g0 5 on\n",
    "group 20 21\ngroup g0 22\n",
    "trans 12 20 65536\n",
    "group 20 21\nallow 15 30 5 4 s32\n",
    "allow 10 g0 5 1 on\ngroup 20 21\n",
    "limit 5 1 10 21 2\n",
    "group 20 21\nallow 10 g0 5 1 on\ngroup 20 21\n",
];

fn main() {
    let mut buffer = [0; LARGEST];
    match build(TEXT.as_bytes(), &mut buffer) {
        Ok(image) => ask(image),
        Err(error) => println!("{error}"),
    }
    for text in REFUSED {
        if let Err(error) = build(text.as_bytes(), &mut buffer) {
            println!("{error}");
        }
        print_left(&buffer);
    }
    if let Err(error) = build(TEXT.as_bytes(), &mut buffer[..20]) {
        println!("{error}");
    }
}

fn ask(image: &[u8]) {
    println!("built, {} bytes", image.len());
    let cleaning = Query::new(15, 30, 5, 4);
    let queries = [Query::new(10, 21, 5, 1), Query::new(13, 21, 5, 1), Query::new(20, 30, 5, 2), cleaning];
    for query in queries.into_iter().chain([cleaning.with_switch(0)]) {
        let hour = if query.has_switch(0) { " in the cleaning hour" } else { "" };
        print!("    {} to {}{hour}: ", query.source, query.destination);
        match decide(image, query) {
            Ok(decision) => println!("{decision}"),
            Err(refusal) => println!("{refusal}"),
        }
    }
}

/// What a refused text leaves: the image of the rows before.
fn print_left(buffer: &[u8]) {
    match image(buffer) {
        Some(image) if check(image).is_ok() => println!("    the rows before make an image of {} bytes", image.len()),
        _ => println!("    no image is left"),
    }
}
