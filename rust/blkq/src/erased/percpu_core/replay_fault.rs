// Erased from crates/percpu_core/src/replay_fault.rt by tools/erase: edit that file.
//! Why a replay ends early.

use crate::erased::percpu_core::not_enabled::NotEnabled;
use std::error::Error;
use std::fmt;

/// Why a replay ended before its last event.
#[derive(Clone, Copy, Debug, PartialEq, Eq)]
pub enum ReplayFault {
    /// There was no room for all replies.
    Memory,
    /// The event at this index, from 0, wasn't enabled.
    Stuck { at: usize, why: NotEnabled },
}

impl fmt::Display for ReplayFault {
    fn fmt(&self, f: &mut fmt::Formatter<'_>) -> fmt::Result {
        match self {
            ReplayFault::Memory => f.write_str("memory"),
            ReplayFault::Stuck { at, why } => write!(f, "event {at}: {why}"),
        }
    }
}

impl Error for ReplayFault {}

impl ReplayFault {
    /// The fault's number, 1 or 2.
    pub fn number(&self) -> u8 {
        match self {
            ReplayFault::Memory => 1,
            ReplayFault::Stuck { .. } => 2,
        }
    }
}
