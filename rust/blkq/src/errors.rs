//! Errors of a run and of a replay.
use crate::erased::blkq_run;
use crate::erased::line_text::{ParseFault, Why};
use std::error::Error;
use std::fmt;

/// Why a line is refused, with the text and number of the table in docs/FORMATS.md.
///
/// ```
/// use blkq::{Config, Reason, RunError};
///
/// let Err(RunError::Script(refused)) = blkq::run(b"blkq 3\n", Config::default()) else { panic!() };
/// assert_eq!(refused.reason, Reason::NoVersion);
/// assert_eq!((refused.reason.to_string().as_str(), refused.reason.number()), ("no version", 2));
/// ```
#[derive(Clone, Copy, Debug, PartialEq, Eq, Hash)]
#[non_exhaustive]
pub enum Reason {
    /// The line isn't UTF-8.
    NotUtf8,
    /// The first line that isn't skipped names no known version.
    NoVersion,
    /// The second line of a script that isn't skipped doesn't begin with `disk`.
    NoDisk,
    /// A word isn't one of those that may be there.
    UnknownWord,
    /// The line has too few words.
    MissingWord,
    /// The line has too many words.
    ExtraWord,
    /// A number isn't 1 to 20 decimal digits.
    BadNumber,
    /// A number isn't in its range.
    OutOfRange,
    /// A pattern isn't an even number of hexadecimal digits, 2 to 128 of them.
    BadHex,
    /// The text has more than 1,048,576 bytes.
    TooLong,
    /// The second line of a schedule or race that isn't skipped doesn't begin with `world`.
    NoWorld,
}

impl Reason {
    /// Returns the number of the reason, from 1 in the order above.
    ///
    /// ```
    /// assert_eq!(blkq::Reason::NotUtf8.number(), 1);
    /// ```
    #[must_use]
    pub fn number(self) -> u8 {
        self.why().number()
    }

    fn why(self) -> Why {
        match self {
            Reason::NotUtf8 => Why::NotUtf8,
            Reason::NoVersion => Why::NoVersion,
            Reason::NoDisk => Why::NoDisk,
            Reason::UnknownWord => Why::UnknownWord,
            Reason::MissingWord => Why::MissingWord,
            Reason::ExtraWord => Why::ExtraWord,
            Reason::BadNumber => Why::BadNumber,
            Reason::OutOfRange => Why::OutOfRange,
            Reason::BadHex => Why::BadHex,
            Reason::TooLong => Why::TooLong,
            Reason::NoWorld => Why::NoWorld,
        }
    }
}

impl From<Why> for Reason {
    fn from(why: Why) -> Reason {
        match why {
            Why::NotUtf8 => Reason::NotUtf8,
            Why::NoVersion => Reason::NoVersion,
            Why::NoDisk => Reason::NoDisk,
            Why::UnknownWord => Reason::UnknownWord,
            Why::MissingWord => Reason::MissingWord,
            Why::ExtraWord => Reason::ExtraWord,
            Why::BadNumber => Reason::BadNumber,
            Why::OutOfRange => Reason::OutOfRange,
            Why::BadHex => Reason::BadHex,
            Why::TooLong => Reason::TooLong,
            Why::NoWorld => Reason::NoWorld,
        }
    }
}

impl fmt::Display for Reason {
    fn fmt(&self, f: &mut fmt::Formatter<'_>) -> fmt::Result {
        self.why().fmt(f)
    }
}

impl Error for Reason {}

/// The first line that is refused, and the reason.
///
/// ```
/// use blkq::{Config, LineError, Reason, RunError};
///
/// let refused = LineError { line: 3, reason: Reason::UnknownWord };
/// assert_eq!(blkq::run(b"blkq 1\ndisk 8 hw 8\nwrites\n", Config::default()), Err(RunError::Script(refused)));
/// assert_eq!(refused.to_string(), "line 3: unknown word");
/// ```
#[derive(Clone, Copy, Debug, PartialEq, Eq, Hash)]
pub struct LineError {
    /// The number of the line, from 1. If a line is missing, the number of lines plus 1.
    pub line: u32,
    /// Why the line is refused.
    pub reason: Reason,
}

impl From<ParseFault> for LineError {
    fn from(fault: ParseFault) -> LineError {
        LineError { line: fault.line, reason: fault.why.into() }
    }
}

impl fmt::Display for LineError {
    fn fmt(&self, f: &mut fmt::Formatter<'_>) -> fmt::Result {
        write!(f, "line {}: {}", self.line, self.reason)
    }
}

impl Error for LineError {}

/// Why [`run`](crate::run()) failed.
///
/// ```
/// use blkq::{Config, RunError};
///
/// let refused = blkq::run(b"", Config::default()).unwrap_err();
/// assert!(matches!(refused, RunError::Script(_)));
/// assert_eq!(refused.to_string(), "line 1: no version");
/// ```
#[derive(Clone, Copy, Debug, PartialEq, Eq, Hash)]
#[non_exhaustive]
pub enum RunError {
    /// Memory was refused.
    Memory,
    /// The start of a thread was refused.
    Thread,
    /// The input isn't a script.
    Script(LineError),
    /// Two requests of a script of version 1 share a sector, may be in flight at the same time, and at least one of them writes.
    Overlap {
        /// The later line.
        line: u32,
        /// The earlier line.
        earlier: u32,
    },
}

impl fmt::Display for RunError {
    fn fmt(&self, f: &mut fmt::Formatter<'_>) -> fmt::Result {
        match self {
            RunError::Memory => f.write_str("memory"),
            RunError::Thread => f.write_str("thread"),
            RunError::Script(refused) => refused.fmt(f),
            RunError::Overlap { line, earlier } => write!(f, "line {line}: overlaps line {earlier}"),
        }
    }
}

impl Error for RunError {}

impl From<blkq_run::Fault> for RunError {
    /// Reading a slice doesn't fail, and writing to the text fails only if memory is refused.
    fn from(fault: blkq_run::Fault) -> RunError {
        match fault {
            blkq_run::Fault::Memory | blkq_run::Fault::Read | blkq_run::Fault::Write { .. } => RunError::Memory,
            blkq_run::Fault::Thread => RunError::Thread,
            blkq_run::Fault::Parse(fault) => RunError::Script(fault.into()),
            blkq_run::Fault::Overlap(pair) => RunError::Overlap { line: pair.line, earlier: pair.earlier },
        }
    }
}

/// Why [`replay`](crate::replay()) failed.
///
/// ```
/// let refused = blkq::replay(b"gate 2\n").unwrap_err();
/// assert_eq!(refused.to_string(), "line 1: no version");
/// ```
#[derive(Clone, Copy, Debug, PartialEq, Eq, Hash)]
#[non_exhaustive]
pub enum ReplayError {
    /// Memory was refused.
    Memory,
    /// The input isn't a schedule.
    Schedule(LineError),
}

impl fmt::Display for ReplayError {
    fn fmt(&self, f: &mut fmt::Formatter<'_>) -> fmt::Result {
        match self {
            ReplayError::Memory => f.write_str("memory"),
            ReplayError::Schedule(refused) => refused.fmt(f),
        }
    }
}

impl Error for ReplayError {}

impl From<blkq_run::Fault> for ReplayError {
    /// A replay starts no thread and has no requests. As for a script, reading and writing fail only if memory is refused.
    fn from(fault: blkq_run::Fault) -> ReplayError {
        match fault {
            blkq_run::Fault::Parse(fault) => ReplayError::Schedule(fault.into()),
            _ => ReplayError::Memory,
        }
    }
}
