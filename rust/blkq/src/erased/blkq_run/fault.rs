// Erased from crates/blkq_run/src/fault.rt by tools/erase: edit that file.
//! Why a run has no output, or only a part of it.

use crate::erased::blk_workers::RunFault;
use crate::erased::counted_io::{InputFault, WriteFault};
use crate::erased::line_text::{Overlap, ParseFault, ScriptFault};
use std::error::Error;
use std::fmt;

/// Why a run has no output, or only a part of it.
#[derive(Clone, Copy, Debug, PartialEq, Eq)]
pub enum Fault {
    /// Memory was refused.
    Memory,
    /// A thread couldn't be started.
    Thread,
    /// The reader failed.
    Read,
    /// The writer failed.
    Write {
        /// How many bytes of the output were written before the failure.
        written: u64,
    },
    /// The input isn't a script.
    Parse(ParseFault),
    /// Two requests of the script overlap.
    Overlap(Overlap),
}

impl fmt::Display for Fault {
    fn fmt(&self, f: &mut fmt::Formatter<'_>) -> fmt::Result {
        match self {
            Fault::Memory => f.write_str("memory"),
            Fault::Thread => f.write_str("thread"),
            Fault::Read => f.write_str("read"),
            Fault::Write { .. } => f.write_str("write"),
            Fault::Parse(it) => write!(f, "{it}"),
            Fault::Overlap(it) => write!(f, "{it}"),
        }
    }
}

impl Error for Fault {}

impl Fault {
    /// Returns the fault's number, counted from 1 in order of declaration.
    pub fn number(&self) -> u8 {
        match self {
            Fault::Memory => 1,
            Fault::Thread => 2,
            Fault::Read => 3,
            Fault::Write { .. } => 4,
            Fault::Parse(_) => 5,
            Fault::Overlap(_) => 6,
        }
    }

    /// Returns the exit status of the program: 2 if the input isn't a script, 3 if requests overlap, otherwise 4.
    pub fn status(&self) -> u8 {
        match self {
            Fault::Parse(_) => 2,
            Fault::Overlap(_) => 3,
            Fault::Memory | Fault::Thread | Fault::Read | Fault::Write { .. } => 4,
        }
    }
}

impl From<InputFault> for Fault {
    fn from(e: InputFault) -> Self {
        match e {
            InputFault::Memory => Fault::Memory,
            InputFault::Read => Fault::Read,
        }
    }
}

impl From<WriteFault> for Fault {
    fn from(e: WriteFault) -> Self {
        Fault::Write { written: e.written }
    }
}

impl From<ScriptFault> for Fault {
    fn from(e: ScriptFault) -> Self {
        match e {
            ScriptFault::Memory => Fault::Memory,
            ScriptFault::Parse(fault) => Fault::Parse(fault),
            ScriptFault::Overlap(pair) => Fault::Overlap(pair),
        }
    }
}

impl From<RunFault> for Fault {
    fn from(e: RunFault) -> Self {
        match e {
            RunFault::Memory => Fault::Memory,
            RunFault::Thread => Fault::Thread,
        }
    }
}
