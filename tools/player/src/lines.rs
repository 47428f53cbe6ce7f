//! Lines of a file, and what is said of a bad one.

use std::fmt;

/// A line that can't be read, counted from 1.
#[derive(Clone, Debug, PartialEq, Eq)]
pub struct BadLine {
    pub line: usize,
    pub why: String,
}

impl BadLine {
    pub fn new(line: usize, why: impl Into<String>) -> BadLine {
        let why = why.into();
        BadLine { line, why }
    }
}

impl fmt::Display for BadLine {
    fn fmt(&self, f: &mut fmt::Formatter) -> fmt::Result {
        write!(f, "line {}: {}", self.line, self.why)
    }
}

/// The lines with their numbers. A last line without a newline counts; behind the last newline there is none.
pub fn lines(text: &[u8]) -> impl Iterator<Item = (usize, &[u8])> {
    let whole = text.strip_suffix(b"\n").unwrap_or(text);
    let none = text.is_empty();
    (1..)
        .zip(whole.split(|byte| *byte == b'\n'))
        .filter(move |_| !none)
}
