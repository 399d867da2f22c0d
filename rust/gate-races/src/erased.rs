//! The race explorer of ../../../crates without its contracts, for this crate and its tests. Nothing here checks its callers.
//! tools/erase writes the files that say so in their first line.
#![forbid(unsafe_code)]
#![allow(missing_docs, missing_debug_implementations, clippy::all, clippy::pedantic, rustdoc::all)]

pub mod maps;
pub mod race_outcomes;
pub mod race_world;
pub mod races_run;
pub mod time;

pub use ::blkq::erased::{
    counted_io, env, fallible, gate_replay, line_text, percpu_core, percpu_words, pointers, streams,
};
