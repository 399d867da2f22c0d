//! The erased files of the waiting queue, the workers, the program and a caller, over a gate that logs and the other erased modules of blkq.
#[path = "../../../freeze-queue/src/erased"]
mod queue {
    pub mod queue_core;
}

#[path = "../../../blkq/src/erased"]
mod runs {
    pub mod blk_workers;
    pub mod blkq_run;
    pub mod freeze_queue;
}

#[path = "../../src/erased"]
mod callers {
    pub mod uses;
}

pub use crate::gate as percpu_gate;
pub use blkq::erased::percpu_gate as gates;
pub use blkq::erased::{
    bias_lanes, blk_script, counted_io, crossbeam_utils, fallible, gate_replay, in_flight, line_text, percpu_core,
    pointers, queue_limits, ram_disk, run_queues, script_meaning, script_overlap, streams, sync, wait_queue,
};
pub use callers::uses;
pub use core::sync::atomic::AtomicU64;
pub use queue::queue_core;

/// The threads of blkq. Two calls that are joined run one after the other: the first one first, unless this thread says otherwise.
pub mod thread {
    use crate::gate::Hook;
    pub use blkq::erased::thread::*;
    use std::cell::Cell;

    thread_local! {
        pub static IS_SECOND_FIRST: Cell<bool> = const { Cell::new(false) };
        /// What this thread runs when it next lets other threads run.
        pub static AT_YIELD: Hook = Hook::default();
    }

    pub fn yield_now() {
        AT_YIELD.with(Hook::run);
    }

    pub fn join<A, B>(first: impl FnOnce() -> A, second: impl FnOnce() -> B) -> (A, B) {
        if IS_SECOND_FIRST.get() {
            let second = second();
            return (first(), second);
        }
        (first(), second())
    }
}
pub use runs::{blk_workers, blkq_run, freeze_queue};
