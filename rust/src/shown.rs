//! Bytes of a text on one line of a message: what cannot be printed is escaped, and what is long is cut.

use std::{ascii, fmt};

/// A row.
pub(crate) struct Row<'t>(pub &'t [u8]);

/// A word of a row.
#[derive(Clone, Copy, Debug, PartialEq, Eq)]
pub(crate) struct Word<'t>(pub &'t [u8]);

/// How many bytes are shown.
const MOST_OF_ROW: usize = 80;
const MOST_OF_WORD: usize = 20;

impl fmt::Display for Row<'_> {
    fn fmt(&self, f: &mut fmt::Formatter<'_>) -> fmt::Result {
        show(f, self.0, MOST_OF_ROW)
    }
}

impl fmt::Display for Word<'_> {
    fn fmt(&self, f: &mut fmt::Formatter<'_>) -> fmt::Result {
        show(f, self.0, MOST_OF_WORD)
    }
}

/// Quotes need no escape here, since what is shown stands between backquotes.
fn show(f: &mut fmt::Formatter<'_>, bytes: &[u8], most: usize) -> fmt::Result {
    for &byte in bytes.iter().take(most) {
        match byte {
            b'\'' | b'"' => write!(f, "{}", char::from(byte))?,
            _ => write!(f, "{}", ascii::escape_default(byte))?,
        }
    }
    match bytes.len() > most {
        true => write!(f, "..."),
        false => Ok(()),
    }
}
