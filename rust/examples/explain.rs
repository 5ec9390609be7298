//! Says in words what is wrong with a policy as text, from a file or from standard input, or how long its image is.

use mungaite::{build, LARGEST};
use std::io::{self, Read};
use std::process::ExitCode;
use std::{env, fs};

fn main() -> io::Result<ExitCode> {
    let text = match env::args_os().nth(1) {
        Some(path) => fs::read(path)?,
        None => read_all(io::stdin())?,
    };
    match build(&text, &mut [0; LARGEST]) {
        Ok(image) => println!("right, and its image has {} bytes", image.len()),
        Err(error) => {
            eprintln!("{error}");
            return Ok(ExitCode::FAILURE);
        }
    }
    Ok(ExitCode::SUCCESS)
}

fn read_all(mut input: impl Read) -> io::Result<Vec<u8>> {
    let mut text = Vec::new();
    input.read_to_end(&mut text)?;
    Ok(text)
}
