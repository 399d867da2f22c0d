//! The queue's erased files and a caller's, over the other erased modules of blkq.
#[path = "../../../freeze-queue/src/erased"]
mod queue {
    pub mod queue_core;
}

#[path = "../../../blkq/src/erased"]
mod waits {
    pub mod freeze_queue;
}

#[path = "../../src/erased"]
mod callers {
    pub mod uses;
}

pub use blkq::erased::{
    bias_lanes, crossbeam_utils, fallible, percpu_core, percpu_gate, percpu_words, queue_limits, sync, thread,
    wait_queue,
};
pub use callers::uses;
pub use core::sync::atomic::AtomicU64;
pub use queue::queue_core;
pub use waits::freeze_queue;
