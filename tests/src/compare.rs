//! One call, made of the engine and of the model: the answers must be equal, and so must every byte.

use crate::model::Model;
use crate::subject::{Answer, Subject};
use mungaite::{Query, Refusal, Section};
use std::fmt::Debug;

/// The engine, and the model that it is compared with.
pub struct Pair<'a> {
    pub engine: &'a dyn Subject,
    pub model: Model,
}

/// The result of a case: what differs, where something does.
pub type Outcome = Result<(), String>;

/// Bytes on either side of a buffer, which no call may touch.
const GUARD: [u8; 24] = [0xA5; 24];

impl Pair<'_> {
    pub fn check(&self, image: &[u8]) -> Outcome {
        equal("check", self.engine.check(image), self.model.check(image), || hex(image))
    }

    pub fn record(&self, image: &[u8], section: Section, n: u16) -> Outcome {
        let answers = (self.engine.record(image, section, n), self.model.record(image, section, n));
        equal("record", answers.0, answers.1, || format!("{section:?} {n} of {}", hex(image)))
    }

    pub fn decide(&self, image: &[u8], query: Query) -> Outcome {
        let answers = (self.engine.decide(image, query), self.model.decide(image, query));
        equal("decide", answers.0, answers.1, || format!("{query:?} on {}", hex(image)))
    }

    /// A run that is lent so many slots, each of which is compared.
    pub fn run(&self, image: &[u8], queries: &[Query], slots: usize) -> Outcome {
        let shown = || format!("{queries:?} with {slots} slots on {}", hex(image));
        let (mut answers, mut modelled) = (unanswered(slots), unanswered(slots));
        let said = self.engine.run(image, queries, &mut answers);
        if said.is_err() {
            equal("answers after a refused run", &answers, &unanswered(slots), shown)?;
        }
        equal("run", said, self.model.run(image, queries, &mut modelled), shown)?;
        equal("answers of a run", answers, modelled, shown)
    }

    pub fn add(&self, buffer: &[u8], record: &[u8]) -> Outcome {
        let shown = || format!("{} into {}", hex(record), hex(buffer));
        self.writes_unless_refused("add", buffer, |subject, buffer| subject.add(buffer, record), shown)
    }

    pub fn permit(&self, input: &[u8]) -> Outcome {
        equal("permit", self.engine.permit(input), self.model.permit(input), || hex(input))
    }

    pub fn build(&self, text: &[u8], buffer: &[u8]) -> Outcome {
        let shown = || format!("{} into {} bytes", typed(text), buffer.len());
        self.writes("build", buffer, |subject, buffer| subject.build(text, buffer), shown).map(drop)
    }

    pub fn compile(&self, text: &[u8]) -> Outcome {
        equal("compile", self.engine.compile(text), self.model.compile(text), || typed(text))
    }

    pub fn convert(&self, image: &[u8], buffer: &[u8]) -> Outcome {
        let shown = || format!("{} into {} bytes", hex(image), buffer.len());
        self.writes_unless_refused("convert", buffer, |subject, buffer| subject.convert(image, buffer), shown)
    }

    pub fn convert_program(&self, input: &[u8]) -> Outcome {
        let answers = (self.engine.convert_program(input), self.model.convert_program(input));
        equal("the program convert", answers.0, answers.1, || hex(input))
    }

    /// A call that writes to a buffer, and leaves it as it was where it refuses.
    fn writes_unless_refused<T: PartialEq + Debug>(
        &self,
        call: &str,
        buffer: &[u8],
        ask: impl Fn(&dyn Subject, &mut [u8]) -> Result<T, Refusal>,
        shown: impl Fn() -> String,
    ) -> Outcome {
        match self.writes(call, buffer, ask, &shown)? {
            (Ok(_), _) => Ok(()),
            (Err(_), left) => same_bytes(&format!("buffer after a refused {call}"), &left, buffer, shown),
        }
    }

    /// A call that writes to a buffer, and to nothing around it: the engine's answer, and its buffer afterwards.
    fn writes<T: PartialEq + Debug>(
        &self,
        call: &str,
        buffer: &[u8],
        ask: impl Fn(&dyn Subject, &mut [u8]) -> T,
        shown: impl Fn() -> String,
    ) -> Result<(T, Vec<u8>), String> {
        let mut guarded = [&GUARD, buffer, &GUARD].concat();
        let place = GUARD.len()..GUARD.len() + buffer.len();
        let answer = ask(self.engine, &mut guarded[place.clone()]);
        let mut modelled = buffer.to_vec();
        let expected = ask(&self.model, &mut modelled);
        equal(call, &answer, &expected, &shown)?;
        same_bytes(&format!("buffer after {call}"), &guarded[place.clone()], &modelled, &shown)?;
        if guarded[..place.start] != GUARD || guarded[place.end..] != GUARD {
            return Err(format!("{call} wrote outside of its buffer: {}", shown()));
        }
        Ok((answer, modelled))
    }
}

/// So many slots before a run: each holds another answer, and one that no row gets.
pub fn unanswered(slots: usize) -> Vec<Answer> {
    (0..slots).map(|slot| Err(Refusal { number: 0xA500 + (slot % 256) as u16, place: 0xA5A5 })).collect()
}

/// Says what differs, if the engine's answer is not the expected one.
pub fn equal<T: PartialEq + Debug>(call: &str, engine: T, expected: T, shown: impl Fn() -> String) -> Outcome {
    if engine == expected {
        return Ok(());
    }
    Err(format!("{call}: got {engine:?}, expected {expected:?}\n    for {}", shown()))
}

/// Says where bytes differ, if they do.
pub fn same_bytes(what: &str, engine: &[u8], expected: &[u8], shown: impl Fn() -> String) -> Outcome {
    if engine == expected {
        return Ok(());
    }
    let at = engine.iter().zip(expected).take_while(|(one, other)| one == other).count();
    let (got, wanted) = (hex(&engine[at..]), hex(&expected[at..]));
    Err(format!("{what}: from byte {at} on got {got}, expected {wanted}\n    for {}", shown()))
}

/// A text as it would be typed in a test, the middle of a long one left out.
pub fn typed(text: &[u8]) -> String {
    match text.len() {
        0..=800 => format!("\"{}\"", text.escape_ascii()),
        length => {
            let (front, end) = (text[..400].escape_ascii(), text[length - 200..].escape_ascii());
            format!("\"{front} .. {end}\" ({length} bytes)")
        }
    }
}

/// Bytes in hexadecimal, the middle of a long row left out.
pub fn hex(bytes: &[u8]) -> String {
    let digits = |part: &[u8]| part.iter().map(|byte| format!("{byte:02X}")).collect::<Vec<_>>().join(" ");
    match bytes.len() {
        0..=400 => digits(bytes),
        length => format!("{} .. {} ({length} bytes)", digits(&bytes[..200]), digits(&bytes[length - 100..])),
    }
}
