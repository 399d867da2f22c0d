// Erased from crates/races_run/src/fault.rt by tools/erase: edit that file.
//! The reasons for which a race isn't answered.

use crate::erased::counted_io::{InputFault, WriteFault};
use crate::erased::line_text::ParseFault;
use crate::erased::percpu_core::Memory;
use crate::erased::race_outcomes::SearchFault;
use std::error::Error;
use std::fmt;

/// Why a race isn't answered, or not completely.
#[derive(Clone, Copy, Debug, PartialEq, Eq)]
pub enum Fault {
    /// Memory was refused.
    Memory,
    /// The reader failed.
    Read,
    /// The writer failed.
    Write {
        /// The number of bytes of the answer that were written.
        written: u64,
    },
    /// The input is no race.
    Parse(ParseFault),
    /// The search would keep more states than the bound on them.
    States,
}

impl fmt::Display for Fault {
    fn fmt(&self, f: &mut fmt::Formatter<'_>) -> fmt::Result {
        match self {
            Fault::Memory => f.write_str("memory"),
            Fault::Read => f.write_str("read"),
            Fault::Write { .. } => f.write_str("write"),
            Fault::Parse(it) => write!(f, "{it}"),
            Fault::States => f.write_str("states"),
        }
    }
}

impl Error for Fault {}

impl Fault {
    /// The fault's number, from 1 in the order of declaration.
    pub fn number(&self) -> u8 {
        match self {
            Fault::Memory => 1,
            Fault::Read => 2,
            Fault::Write { .. } => 3,
            Fault::Parse(_) => 4,
            Fault::States => 5,
        }
    }

    /// The program's exit status: 2 if the input is no race, otherwise 4.
    pub fn status(&self) -> u8 {
        match self {
            Fault::Parse(_) => 2,
            Fault::Memory | Fault::Read | Fault::Write { .. } | Fault::States => 4,
        }
    }
}

impl From<InputFault> for Fault {
    fn from(e: InputFault) -> Self {
        match e {
            InputFault::Memory => Fault::Memory,
            InputFault::Read => Fault::Read,
        }
    }
}

impl From<WriteFault> for Fault {
    fn from(e: WriteFault) -> Self {
        Fault::Write { written: e.written }
    }
}

impl From<Memory> for Fault {
    fn from(_refused: Memory) -> Self {
        Fault::Memory
    }
}

impl From<SearchFault> for Fault {
    fn from(e: SearchFault) -> Self {
        match e {
            SearchFault::Memory => Fault::Memory,
            SearchFault::States => Fault::States,
        }
    }
}
