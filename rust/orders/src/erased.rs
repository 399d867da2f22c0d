//! The erased gate and queue, over stand-ins that hand each step to the scheduler. Nothing here checks its callers. The files of
//! `gate`, `queue` and `waits` are those of the neighbouring crates.
#![allow(dead_code, missing_docs, missing_debug_implementations, clippy::all, clippy::pedantic, rustdoc::all)]

pub mod atomic_table;
pub mod crossbeam_utils;
pub mod pointers;
pub mod sync;

/// The lanes of a queue. No step of theirs goes to the scheduler: `tests/biased` has the races of biased tags.
#[path = "../../freeze-queue/src/erased/lane_table.rs"]
mod lane_table;
use core::sync::atomic::AtomicU64;

/// The fences of lanes.
mod fences {
    pub fn light_fence() {}

    pub fn heavy_fence() {}

    pub fn has_heavy_fence() -> bool {
        true
    }
}

#[path = "../../percpu-gate/src/erased"]
mod gate {
    pub mod fallible;
    pub mod percpu_core;
    pub mod percpu_gate;
    pub mod percpu_words;
}

#[path = "../../freeze-queue/src/erased"]
mod queue {
    pub mod bias_lanes;
    pub mod queue_core;
    pub mod queue_limits;
}

#[path = "../../blkq/src/erased"]
mod waits {
    pub mod freeze_queue;
    pub mod wait_queue;
}

pub use gate::{fallible, percpu_core, percpu_gate, percpu_words};
pub use queue::{bias_lanes, queue_core, queue_limits};
pub use waits::{freeze_queue, wait_queue};

/// A step on a word that its table doesn't have.
#[track_caller]
pub fn past_the_end(word: usize, words: usize) -> ! {
    panic!("a table of {words} words has no word {word}")
}
