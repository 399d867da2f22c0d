// Erased from crates/queue_limits/src/fault.rt by tools/erase: edit that file.
//! Why limits are refused.

use core::error::Error;
use core::fmt;

/// Why limits are refused. If several reasons apply, [`Limits::new`](crate::erased::queue_limits::Limits::new) returns `HardwareRange` first,
/// then `AboveHardware`, then `ChunkTooLarge`.
#[derive(Clone, Copy, Debug, PartialEq, Eq)]
pub enum LimitFault {
    /// The maximum of a request is more than the hardware takes.
    AboveHardware,
    /// The chunk has more than 65,535 sectors.
    ChunkTooLarge,
    /// The hardware limit isn't from 1 to 65,535 sectors.
    HardwareRange,
    /// The physical block isn't a power of two of sectors, or has more than 32,768.
    BadPhysical,
}

impl fmt::Display for LimitFault {
    fn fmt(&self, f: &mut fmt::Formatter<'_>) -> fmt::Result {
        match self {
            LimitFault::AboveHardware => f.write_str("more sectors than the hardware takes"),
            LimitFault::ChunkTooLarge => f.write_str("a chunk of more than 65535 sectors"),
            LimitFault::HardwareRange => f.write_str("a hardware limit outside 1 to 65535 sectors"),
            LimitFault::BadPhysical => {
                f.write_str("a physical block that isn't a power of two from 1 to 32768 sectors")
            }
        }
    }
}

impl Error for LimitFault {}

impl LimitFault {
    /// Returns the fault's number, counted from 1 in order of declaration.
    pub fn number(&self) -> u8 {
        match self {
            LimitFault::AboveHardware => 1,
            LimitFault::ChunkTooLarge => 2,
            LimitFault::HardwareRange => 3,
            LimitFault::BadPhysical => 4,
        }
    }
}
