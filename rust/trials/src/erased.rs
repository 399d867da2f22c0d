//! The crate ../../../crates/uses without its contracts, and the crates that it and the tests use. tools/erase writes the files that
//! say so in their first line.
#![forbid(unsafe_code)]
#![allow(missing_docs, missing_debug_implementations, clippy::all, clippy::pedantic, rustdoc::all)]

pub mod uses;

pub use ::blkq::erased::{
    atomic_table, blk_script, blk_workers, blkq_run, counted_io, crossbeam_queue, crossbeam_utils, env, fallible,
    freeze_queue, gate_replay, line_text, percpu_core, percpu_gate, percpu_words, pointers, queue_core, queue_limits,
    ram_disk, run_queues, script_meaning, streams, sync, thread, wait_queue,
};
