//! The error of a search.
use crate::erased::races_run;
use blkq::LineError;
use std::error::Error;
use std::fmt;

/// Why [`outcomes`](crate::outcomes()) failed.
///
/// ```
/// let refused = gate_races::outcomes(b"races 1\nworld 1 1 atomic 0\n1 try 0\n").unwrap_err();
/// assert_eq!(refused.to_string(), "line 3: out of range");
/// ```
#[derive(Clone, Copy, Debug, PartialEq, Eq, Hash)]
#[non_exhaustive]
pub enum RaceError {
    /// There isn't enough memory for the states of the race.
    Memory,
    /// The input isn't a race.
    Race(LineError),
}

impl fmt::Display for RaceError {
    fn fmt(&self, f: &mut fmt::Formatter<'_>) -> fmt::Result {
        match self {
            RaceError::Memory => f.write_str("memory"),
            RaceError::Race(refused) => refused.fmt(f),
        }
    }
}

impl Error for RaceError {}

impl From<races_run::Fault> for RaceError {
    /// As for a script, reading and writing fail only if memory is refused.
    fn from(fault: races_run::Fault) -> RaceError {
        match fault {
            races_run::Fault::Parse(fault) => RaceError::Race(fault.into()),
            _ => RaceError::Memory,
        }
    }
}
