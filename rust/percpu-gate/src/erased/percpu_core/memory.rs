// Erased from crates/percpu_core/src/memory.rt by tools/erase: edit that file.
//! Refused memory.

use crate::erased::fallible::AllocError;
use core::error::Error;
use core::fmt;

/// An allocation was refused.
#[derive(Clone, Copy, Debug, PartialEq, Eq)]
pub struct Memory;

impl fmt::Display for Memory {
    fn fmt(&self, f: &mut fmt::Formatter<'_>) -> fmt::Result {
        f.write_str("memory")
    }
}

impl Error for Memory {}

impl From<AllocError> for Memory {
    fn from(_refused: AllocError) -> Memory {
        Memory
    }
}
