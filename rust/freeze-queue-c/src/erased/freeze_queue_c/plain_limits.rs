// Erased from crates/freeze_queue_c/src/plain_limits.rt by tools/erase: edit that file.
//! Limits for C.

use crate::erased::queue_core::{LimitFault, Limits};

/// Four numbers of sectors, unchecked: the maximum that the hardware takes in one request, the maximum of one request (0: that of the
/// hardware), the chunk (0: none), and the physical block (0: one sector). Linux: `struct queue_limits` (include/linux/blkdev.h).
#[derive(Clone, Copy, Debug, PartialEq, Eq)]
#[repr(C)]
pub struct PlainLimits {
    pub hardware: u32,
    pub max: u32,
    pub chunk: u32,
    pub physical: u32,
}

impl PlainLimits {
    /// The numbers of these limits.
    pub fn of(limits: Limits) -> PlainLimits {
        PlainLimits { hardware: limits.hw(), max: limits.max(), chunk: limits.chunk(), physical: limits.physical() }
    }

    /// Returns the limits with these numbers. Refuses with HardwareRange, AboveHardware, ChunkTooLarge or BadPhysical, in this order.
    pub fn checked(&self) -> Result<Limits, LimitFault> {
        let mut limits = Limits::new(self.hardware, self.max, self.chunk)?;
        limits.set_physical(if self.physical == 0 { 1 } else { self.physical })?;
        Ok(limits)
    }
}
