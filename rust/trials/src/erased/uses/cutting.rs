// Erased from crates/uses/src/cutting.rt by tools/erase: edit that file.
//! Cutting a range into the commands that a device takes.

use crate::erased::fallible::{AllocError, TryVec};
use crate::erased::queue_limits::Limits;

/// A command to a device: its first sector, and how many sectors it moves.
#[derive(Clone, Copy, Debug, PartialEq, Eq)]
pub struct Command {
    pub first: u64,
    pub sectors: u32,
}

/// Returns the commands for the `count` sectors that start at `start`. Each begins where the one before it ended, and their lengths
/// are the pieces of the range. So each sector is moved once, and no command exceeds a limit.
///
/// Linux: a driver's `queue_rq` (include/linux/blk-mq.h), which gets one piece at a call.
///
/// # Preconditions
///
/// - `start` is less than `2^32`.
pub fn commands(limits: &Limits, start: u64, count: u32) -> Result<Vec<Command>, AllocError> {
    debug_assert!(start < 1 << 32);
    let mut made = Vec::new();
    let mut first = start;
    for sectors in limits.pieces(start, count) {
        made.try_push(Command { first, sectors })?;
        first += u64::from(sectors);
    }
    Ok(made)
}
