//! The library's sources without their contracts. tools/erase writes the files that say so in their first line.
//!
//! C's pointers need `unsafe`: a handle hides the type of its pointer, and may cross threads.
#![allow(
    missing_docs,
    missing_debug_implementations,
    clippy::all,
    clippy::pedantic,
    clippy::undocumented_unsafe_blocks
)]

pub mod percpu_gate_c;

/// The gate's steps, from the package percpu-gate, over the table that c-memory compiles.
#[path = "../../percpu-gate/src/erased"]
pub mod gate {
    pub mod percpu_core;
    pub mod percpu_gate;
    pub mod percpu_words;
}

/// What both libraries answer, from the package c-memory: it stands on the gate's `Put`, which each library compiles for itself.
#[path = "../../c-memory/src/erased"]
pub mod answers {
    pub mod c_answers;
}

pub use ::percpu_gate::erased::fallible;
pub use answers::c_answers;
pub use c_memory as pointers;
pub use c_memory::erased::atomic_table;
pub use c_memory::erased::loose_box;
pub use gate::{percpu_core, percpu_gate, percpu_words};
