// Erased from crates/queue_core/src/fault.rt by tools/erase: edit that file.
//! Refusals of a freezer.

use core::error::Error;
use core::fmt;

/// Why a freezer refuses a call. The call has changed nothing.
#[derive(Clone, Copy, Debug, PartialEq, Eq)]
pub enum FreezeFault {
    /// 1,000 freezes are under way.
    DepthFull,
    /// No freeze is under way. Linux: a warning of `__blk_mq_unfreeze_queue` (block/blk-mq.c).
    NotFrozen,
    /// The gate isn't at zero: a tag is still entered, or a refused try hasn't taken its 1 back.
    NotDrained,
    /// This many tags weren't handed back.
    TagsOut(u32),
    /// The gate was killed 2^40 times.
    WornOut,
}

impl fmt::Display for FreezeFault {
    fn fmt(&self, f: &mut fmt::Formatter<'_>) -> fmt::Result {
        match self {
            FreezeFault::DepthFull => f.write_str("depth full"),
            FreezeFault::NotFrozen => f.write_str("not frozen"),
            FreezeFault::NotDrained => f.write_str("not drained"),
            FreezeFault::TagsOut(it) => write!(f, "{it} tags out"),
            FreezeFault::WornOut => f.write_str("worn out"),
        }
    }
}

impl Error for FreezeFault {}

impl FreezeFault {
    /// The refusal's number, 1 to 5.
    pub fn number(&self) -> u8 {
        match self {
            FreezeFault::DepthFull => 1,
            FreezeFault::NotFrozen => 2,
            FreezeFault::NotDrained => 3,
            FreezeFault::TagsOut(_) => 4,
            FreezeFault::WornOut => 5,
        }
    }
}
