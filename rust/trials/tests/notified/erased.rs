//! The erased files of the waiting queue over counting waits, and of the waits over counting events.
#[path = "../../../freeze-queue/src/erased"]
mod queue {
    pub mod queue_core;
}

#[path = "../../../blkq/src/erased"]
mod waits {
    pub mod freeze_queue;
}

pub use crate::counting as wait_queue;
pub use crate::parking as crossbeam_utils;
pub use blkq::erased::{bias_lanes, fallible, percpu_core, percpu_gate, percpu_words, queue_limits, sync};
pub use core::sync::atomic::AtomicU64;
pub use queue::queue_core;
pub use waits::freeze_queue;
