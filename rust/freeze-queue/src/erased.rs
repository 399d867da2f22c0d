//! The queue of ../../../crates without its contracts. Nothing here is checked for a caller: it is for this crate and those
//! above it. tools/erase writes the files that say so in their first line.
#![deny(unsafe_code)] // except in lane_table.rs and fences.rs
#![allow(missing_docs, missing_debug_implementations, clippy::all, clippy::pedantic, rustdoc::all)]

pub mod bias_lanes;
pub mod fences;
pub mod lane_table;
pub mod queue_core;
pub mod queue_limits;

use core::sync::atomic::AtomicU64;

pub use ::percpu_gate::erased::{atomic_table, fallible, percpu_core, percpu_gate, percpu_words};

/// A step on a word that its table doesn't have: no caller that meets the preconditions takes one.
#[cold]
#[inline(never)]
#[track_caller]
fn past_the_end(word: usize, words: usize) -> ! {
    panic!("index out of bounds: a table of {words} words has no word {word}")
}
