// Erased from crates/ram_disk/src/fault.rt by tools/erase: edit that file.
//! Why a call of the disk fails.

use crate::erased::fallible::{AllocError, AllocFailed};
use std::error::Error;
use std::fmt;

/// Why a call of the disk fails. The disk is unchanged.
#[derive(Clone, Copy, PartialEq, Eq, Debug)]
pub enum DiskFault {
    /// The range of sectors reaches past the last one.
    PastEnd,
    /// Memory was refused for what the call makes.
    Memory,
}

impl fmt::Display for DiskFault {
    fn fmt(&self, f: &mut fmt::Formatter<'_>) -> fmt::Result {
        match self {
            DiskFault::PastEnd => f.write_str("past the end of the disk"),
            DiskFault::Memory => f.write_str("out of memory"),
        }
    }
}

impl Error for DiskFault {}

impl DiskFault {
    /// Returns the fault's number: 1 for `PastEnd`, 2 for `Memory`.
    pub fn number(&self) -> u8 {
        match self {
            DiskFault::PastEnd => 1,
            DiskFault::Memory => 2,
        }
    }
}

impl From<AllocError> for DiskFault {
    fn from(_error: AllocError) -> DiskFault {
        DiskFault::Memory
    }
}

impl<T> From<AllocFailed<T>> for DiskFault {
    fn from(_error: AllocFailed<T>) -> DiskFault {
        DiskFault::Memory
    }
}
