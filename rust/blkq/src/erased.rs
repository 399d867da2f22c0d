//! The programs of ../../../crates without their contracts, for this crate and those above it. Nothing here checks its callers.
//! tools/erase writes the files that say so in their first line.
#![deny(unsafe_code)]
#![allow(missing_docs, missing_debug_implementations, clippy::all, clippy::pedantic, rustdoc::all)]

pub mod blk_script;
pub mod blk_workers;
pub mod blkq_run;
pub mod counted_io;
pub mod crossbeam_queue;
pub mod crossbeam_utils;
pub mod env;
pub mod freeze_queue;
pub mod gate_replay;
pub mod hex;
pub mod in_flight;
pub mod itoa;
pub mod line_text;
pub mod memchr;
pub mod percpu_core;
pub mod pointers;
pub mod ram_disk;
pub mod run_queues;
pub mod script_meaning;
pub mod script_overlap;
pub mod streams;
pub mod sync;
pub mod thread;
pub mod wait_queue;

pub use ::freeze_queue::erased::{bias_lanes, queue_core, queue_limits};
pub use ::percpu_gate::erased::{atomic_table, fallible, percpu_gate, percpu_words};
