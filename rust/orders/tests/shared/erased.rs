//! The erased gate and queue of the crates beside this one, over the atomic numbers and the fences of the test's module `words`.
#[path = "../../../percpu-gate/src/erased/atomic_table.rs"]
pub mod atomic_table;
#[path = "../../../freeze-queue/src/erased/lane_table.rs"]
pub mod lane_table;

#[path = "../../../percpu-gate/src/erased"]
mod gate {
    pub mod fallible;
    pub mod percpu_core;
    pub mod percpu_gate;
    pub mod percpu_words;
}

#[path = "../../../freeze-queue/src/erased"]
mod queue {
    pub mod bias_lanes;
    pub mod queue_core;
    pub mod queue_limits;
}

pub use gate::{fallible, percpu_core, percpu_gate, percpu_words};
pub use queue::{bias_lanes, queue_core, queue_limits};

pub(crate) use crate::words::{AtomicU64, fences};
use orders::erased::past_the_end;
