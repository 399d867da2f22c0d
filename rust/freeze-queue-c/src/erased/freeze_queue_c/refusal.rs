// Erased from crates/freeze_queue_c/src/refusal.rt by tools/erase: edit that file.
//! Refusals of the calls that take limits, make a queue or end it.

use crate::erased::c_answers::Misuse;
use crate::erased::queue_core::{FreezeFault, LimitFault};
use core::error::Error;
use core::fmt;

/// Why a call is refused. The call has changed nothing, unless the end of a queue returned Memory.
#[derive(Clone, Copy, Debug, PartialEq, Eq)]
pub enum Refusal {
    /// No queue may have these limits.
    OfLimits(LimitFault),
    /// The limits are for another hardware limit than the queue's.
    OtherHardware,
    /// The queue refuses.
    OfQueue(FreezeFault),
    /// The call is misused.
    OfMisuse(Misuse),
}

impl fmt::Display for Refusal {
    fn fmt(&self, f: &mut fmt::Formatter<'_>) -> fmt::Result {
        match self {
            Refusal::OfLimits(it) => write!(f, "{it}"),
            Refusal::OtherHardware => f.write_str("another hardware limit"),
            Refusal::OfQueue(it) => write!(f, "{it}"),
            Refusal::OfMisuse(it) => write!(f, "{it}"),
        }
    }
}

impl Error for Refusal {}

impl Refusal {
    /// The refusal's number: a fault of limits plus 24, 29 for other hardware, a refusal of the queue plus 16, or the misuse's number.
    pub fn number(&self) -> u32 {
        match self {
            Refusal::OfLimits(why) => 24 + u32::from(why.number()),
            Refusal::OtherHardware => 29,
            Refusal::OfQueue(why) => 16 + u32::from(why.number()),
            Refusal::OfMisuse(why) => why.number(),
        }
    }
}
