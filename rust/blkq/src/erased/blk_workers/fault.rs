// Erased from crates/blk_workers/src/fault.rt by tools/erase: edit that file.
//! Why a run fails.

use crate::erased::fallible::AllocError;
use crate::erased::freeze_queue::Memory;
use std::error::Error;
use std::fmt;

/// Why a run fails. The threads that it started have ended, and nothing else is returned.
#[derive(Clone, Copy, Debug, PartialEq, Eq)]
pub enum RunFault {
    /// Memory was refused, or the script has 2^32 lines or more.
    Memory,
    /// A thread couldn't be started.
    Thread,
}

impl fmt::Display for RunFault {
    fn fmt(&self, f: &mut fmt::Formatter<'_>) -> fmt::Result {
        match self {
            RunFault::Memory => f.write_str("memory"),
            RunFault::Thread => f.write_str("thread"),
        }
    }
}

impl Error for RunFault {}

impl RunFault {
    /// Returns the fault's number, counted from 1 in order of declaration. No crate here calls this; it is for callers that
    /// identify faults by number.
    pub fn number(&self) -> u8 {
        match self {
            RunFault::Memory => 1,
            RunFault::Thread => 2,
        }
    }
}

impl From<AllocError> for RunFault {
    fn from(_e: AllocError) -> Self {
        RunFault::Memory
    }
}

impl From<Memory> for RunFault {
    fn from(_refused: Memory) -> Self {
        RunFault::Memory
    }
}
