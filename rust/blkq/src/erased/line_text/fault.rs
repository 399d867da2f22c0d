// Erased from crates/line_text/src/fault.rt by tools/erase: edit that file.
//! Why a text is refused.

use crate::erased::fallible::{AllocError, AllocFailed};
use std::error::Error;
use std::fmt;

/// Why a line is refused. The faults of a line are tested in the order of docs/FORMATS.md.
#[derive(Clone, Copy, Debug, PartialEq, Eq)]
pub enum Why {
    /// The line isn't UTF-8.
    NotUtf8,
    /// The first statement doesn't name a known version.
    NoVersion,
    /// The second statement doesn't begin with `disk`.
    NoDisk,
    /// A first word, or a word that has to be one of a few, is unknown.
    UnknownWord,
    /// The line has too few words.
    MissingWord,
    /// The line has too many words.
    ExtraWord,
    /// A word that should be a number isn't 1 to 20 decimal digits.
    BadNumber,
    /// A number isn't in its range.
    OutOfRange,
    /// A pattern isn't an even number of hexadecimal digits, 2 to 128.
    BadHex,
    /// The text has more than 1,048,576 bytes.
    TooLong,
    /// The second statement of a schedule doesn't begin with `world`.
    NoWorld,
}

impl fmt::Display for Why {
    fn fmt(&self, f: &mut fmt::Formatter<'_>) -> fmt::Result {
        match self {
            Why::NotUtf8 => f.write_str("not utf-8"),
            Why::NoVersion => f.write_str("no version"),
            Why::NoDisk => f.write_str("no disk"),
            Why::UnknownWord => f.write_str("unknown word"),
            Why::MissingWord => f.write_str("missing word"),
            Why::ExtraWord => f.write_str("extra word"),
            Why::BadNumber => f.write_str("bad number"),
            Why::OutOfRange => f.write_str("out of range"),
            Why::BadHex => f.write_str("bad hex"),
            Why::TooLong => f.write_str("too long"),
            Why::NoWorld => f.write_str("no world"),
        }
    }
}

impl Error for Why {}

impl Why {
    /// Returns the reason's number, counted from 1 in order of declaration.
    pub fn number(&self) -> u8 {
        match self {
            Why::NotUtf8 => 1,
            Why::NoVersion => 2,
            Why::NoDisk => 3,
            Why::UnknownWord => 4,
            Why::MissingWord => 5,
            Why::ExtraWord => 6,
            Why::BadNumber => 7,
            Why::OutOfRange => 8,
            Why::BadHex => 9,
            Why::TooLong => 10,
            Why::NoWorld => 11,
        }
    }
}

/// The first fault of a text: its line, counted from 1, and why that line is refused.
#[derive(Clone, Copy, Debug, PartialEq, Eq)]
pub struct ParseFault {
    pub line: u32,
    pub why: Why,
}

impl fmt::Display for ParseFault {
    fn fmt(&self, f: &mut fmt::Formatter<'_>) -> fmt::Result {
        let ParseFault { line, why } = self;
        write!(f, "line {line}: {why}")
    }
}

impl Error for ParseFault {}

/// Two requests of a script that overlap, by their line numbers, counted from 1.
#[derive(Clone, Copy, Debug, PartialEq, Eq)]
pub struct Overlap {
    /// The later of the two lines.
    pub line: u32,
    pub earlier: u32,
}

impl fmt::Display for Overlap {
    fn fmt(&self, f: &mut fmt::Formatter<'_>) -> fmt::Result {
        let Overlap { line, earlier } = self;
        write!(f, "line {line}: overlaps line {earlier}")
    }
}

impl Error for Overlap {}

/// Why a script or a schedule has no answer. A schedule never has `Overlap`.
#[derive(Clone, Copy, Debug, PartialEq, Eq)]
pub enum ScriptFault {
    /// An allocation was refused.
    Memory,
    /// The text is refused.
    Parse(ParseFault),
    /// Two requests of the script overlap.
    Overlap(Overlap),
}

impl fmt::Display for ScriptFault {
    fn fmt(&self, f: &mut fmt::Formatter<'_>) -> fmt::Result {
        match self {
            ScriptFault::Memory => f.write_str("memory"),
            ScriptFault::Parse(it) => write!(f, "{it}"),
            ScriptFault::Overlap(it) => write!(f, "{it}"),
        }
    }
}

impl Error for ScriptFault {}

impl From<AllocError> for ScriptFault {
    fn from(_refused: AllocError) -> Self {
        ScriptFault::Memory
    }
}

impl<T> From<AllocFailed<T>> for ScriptFault {
    fn from(_refused: AllocFailed<T>) -> Self {
        ScriptFault::Memory
    }
}

impl From<ParseFault> for ScriptFault {
    fn from(fault: ParseFault) -> Self {
        ScriptFault::Parse(fault)
    }
}

/// Why a call on the words of one line failed.
#[derive(Clone, Copy, Debug, PartialEq, Eq)]
pub enum LineFault {
    /// An allocation was refused.
    Memory,
    /// The line is refused.
    Refused(Why),
}

impl fmt::Display for LineFault {
    fn fmt(&self, f: &mut fmt::Formatter<'_>) -> fmt::Result {
        match self {
            LineFault::Memory => f.write_str("memory"),
            LineFault::Refused(it) => write!(f, "{it}"),
        }
    }
}

impl Error for LineFault {}

impl From<AllocError> for LineFault {
    fn from(_refused: AllocError) -> Self {
        LineFault::Memory
    }
}

impl From<Why> for LineFault {
    fn from(why: Why) -> Self {
        LineFault::Refused(why)
    }
}

/// Returns the result of a call on the words of a line, with the number of that line in its fault.
pub fn at_line<T>(line: u32, outcome: Result<T, Why>) -> Result<T, ParseFault> {
    outcome.map_err(|why| ParseFault { line, why })
}
