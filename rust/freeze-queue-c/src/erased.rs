//! The library's sources without their contracts. tools/erase writes the files that say so in their first line.
//!
//! C's pointers need `unsafe`: a handle hides the type of its pointer, and may cross threads.
#![allow(
    missing_docs,
    missing_debug_implementations,
    clippy::all,
    clippy::pedantic,
    clippy::undocumented_unsafe_blocks
)]

pub mod freeze_queue_c;

/// The queue's steps, from the package freeze-queue. It isn't taken in whole, since its waits need std.
#[path = "../../freeze-queue/src/erased"]
pub mod steps {
    pub mod bias_lanes;
    pub mod queue_core;
    pub mod queue_limits;
}

/// The fences of biased lanes and their table, from the same package. C code steps in lanes too.
#[path = "../../freeze-queue/src/erased/fences.rs"]
pub mod fences;
#[path = "../../freeze-queue/src/erased/lane_table.rs"]
pub mod lane_table;

/// The gate's steps, from the package percpu-gate, over the table that c-memory compiles.
#[path = "../../percpu-gate/src/erased"]
pub mod gate {
    pub mod percpu_core;
    pub mod percpu_gate;
    pub mod percpu_words;
}

/// What both libraries answer, from the package c-memory: it stands on the gate's `Put`, which each library compiles for itself.
#[path = "../../c-memory/src/erased"]
pub mod answers {
    pub mod c_answers;
}

pub use ::percpu_gate::erased::fallible;
pub use answers::c_answers;
pub use c_memory as pointers;
pub use c_memory::erased::atomic_table;
pub use c_memory::erased::loose_box;
pub use gate::{percpu_core, percpu_gate, percpu_words};
pub use steps::{bias_lanes, queue_core, queue_limits};

use core::sync::atomic::AtomicU64;

/// A step on a word that its table doesn't have ends the program by one instruction.
#[inline(always)]
fn past_the_end(_word: usize, _words: usize) -> ! {
    c_memory::trap()
}
