//! The engine: the library, called through the crate `mungaite`, and the programs `permit`, `compile` and `convert`,
//! run
//! as processes.

use crate::subject::{Answer, Subject, TextRefusal};
use crate::text::row_number;
use crate::{filter, numbers};
use mungaite::{BuildError, Query, Refusal, Run, Section};
use std::io::{Read, Write};
use std::ops::Range;
use std::path::PathBuf;
use std::process::{Child, Command, Stdio};
use std::{env, thread};

/// Where the programs are unless the environment variables PERMIT, COMPILE and CONVERT name other places. Relative to
/// this crate's folder.
const PERMIT: &str = "../target/bin/permit";
const COMPILE: &str = "../target/bin/compile";
const CONVERT: &str = "../target/bin/convert";

pub struct Engine {
    permit: PathBuf,
    compile: PathBuf,
    convert: PathBuf,
}

impl Engine {
    pub fn new() -> Engine {
        let crate_folder = PathBuf::from(env!("CARGO_MANIFEST_DIR"));
        let path = |name: &str, place: &str| env::var_os(name).map_or(crate_folder.join(place), PathBuf::from);
        Engine { permit: path("PERMIT", PERMIT), compile: path("COMPILE", COMPILE), convert: path("CONVERT", CONVERT) }
    }

    /// The program `permit`, to be started.
    pub fn program(&self) -> Command {
        Command::new(&self.permit)
    }

    /// The program `compile`, to be started.
    pub fn compiler(&self) -> Command {
        Command::new(&self.compile)
    }

    /// The program `convert`, to be started.
    pub fn converter(&self) -> Command {
        Command::new(&self.convert)
    }

    /// The program `permit`, started, with its input and output at hand.
    pub fn start(&self) -> Child {
        self.program()
            .stdin(Stdio::piped())
            .stdout(Stdio::piped())
            .spawn()
            .unwrap_or_else(|error| panic!("cannot run {} (set PERMIT): {error}", self.permit.display()))
    }
}

impl Subject for Engine {
    fn check(&self, image: &[u8]) -> Result<(), Refusal> {
        mungaite::check(image)
    }

    fn record(&self, image: &[u8], section: Section, n: u16) -> Result<Range<usize>, Refusal> {
        let record = mungaite::record(image, section, n)?;
        let place = record.as_ptr() as usize - image.as_ptr() as usize;
        Ok(place..place + record.len())
    }

    fn decide(&self, image: &[u8], query: Query) -> Answer {
        mungaite::decide(image, query)
    }

    /// The answers by the crate, and the same by the C function.
    fn run(&self, image: &[u8], queries: &[Query], answers: &mut [Answer]) -> Result<Run, Refusal> {
        let in_numbers = |answers: &[Answer]| answers.iter().map(|answer| numbers::of_answer(*answer)).collect();
        let mut slots: Vec<u64> = in_numbers(answers);
        let said = mungaite::run(image, queries, answers);
        let raw = numbers::run(image, &numbers::of_rows(queries), &mut slots);
        assert_eq!((raw, slots), (numbers::of_run(said), in_numbers(answers)), "{queries:?} by the C function");
        said
    }

    fn add(&self, buffer: &mut [u8], record: &[u8]) -> Result<u16, Refusal> {
        mungaite::add(buffer, record)
    }

    fn permit(&self, input: &[u8]) -> String {
        let mut child = self.start();
        let mut stdin = child.stdin.take().expect("stdin is piped");
        let mut stdout = child.stdout.take().expect("stdout is piped");
        let mut output = String::new();
        thread::scope(|scope| {
            scope.spawn(move || write_in_pieces(&mut stdin, input));
            stdout.read_to_string(&mut output).expect("the output is text");
        });
        let status = child.wait().expect("the program can be waited for");
        assert!(status.code().is_some(), "the program was killed: {status}");
        output
    }

    /// The image by the crate, and the same by the C function.
    fn build(&self, text: &[u8], buffer: &mut [u8]) -> Result<usize, TextRefusal> {
        let mut lent = buffer.to_vec();
        let raw = numbers::build(text, &mut lent);
        let front = buffer.as_ptr();
        let said = match mungaite::build(text, buffer) {
            Ok(image) => {
                assert_eq!(image.as_ptr(), front, "the image is the buffer's front");
                Ok(image.len())
            }
            Err(error) => Err(refused(text, error)),
        };
        assert!(raw == numbers::of_build(said) && lent == buffer, "{said:?} by the crate, {raw:#X} by the C function");
        said
    }

    fn compile(&self, text: &[u8]) -> Result<Vec<u8>, String> {
        filter::written(&mut self.compiler(), text)
    }

    /// The image by the crate, and the same by the C function.
    fn convert(&self, image: &[u8], buffer: &mut [u8]) -> Result<usize, Refusal> {
        let mut lent = buffer.to_vec();
        let raw = numbers::convert(image, &mut lent);
        let front = buffer.as_ptr();
        let said = mungaite::convert(image, buffer).map(|new| {
            assert_eq!(new.as_ptr(), front, "the image is the buffer's front");
            new.len()
        });
        assert!(
            raw == numbers::of_convert(said) && lent == buffer,
            "{said:?} by the crate, {raw:#X} by the C function"
        );
        said
    }

    fn convert_program(&self, input: &[u8]) -> Result<Vec<u8>, String> {
        filter::written(&mut self.converter(), input)
    }
}

/// The refusal of a text. The row that it names must be the one at its place.
fn refused(text: &[u8], error: BuildError) -> TextRefusal {
    let refused = TextRefusal { number: error.number, place: error.place };
    let row = text[error.place..].split(|&byte| byte == b'\n').next().unwrap_or_default();
    assert_eq!((error.row, error.text), (row_number(text, error.place), row), "the row of {refused:?}");
    refused
}

/// Writes pieces of 1, 2, 4 and so on bytes, so that the program's reads end at many places. A program that refuses
/// the image or the text may end before it has read everything: a failed write is no fault.
pub fn write_in_pieces(to: &mut impl Write, input: &[u8]) {
    let mut rest = input;
    let mut size = 1;
    while !rest.is_empty() {
        let (piece, later) = rest.split_at(size.min(rest.len()));
        if to.write_all(piece).is_err() {
            return;
        }
        (rest, size) = (later, 2 * size);
    }
}
