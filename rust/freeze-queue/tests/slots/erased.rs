//! The erased files of the queue, over a gate that logs and over the crate's other erased modules.
#[path = "../../src/erased"]
mod queue {
    pub mod queue_core;
}

pub use crate::gate as percpu_gate;
pub use core::sync::atomic::AtomicU64;
pub use freeze_queue::erased::percpu_gate as gates;
pub use freeze_queue::erased::{bias_lanes, fallible, fences, percpu_core, queue_limits};
pub use queue::queue_core;
