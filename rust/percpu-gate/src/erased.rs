//! The gate of ../../../crates without its contracts, for this crate and those above it. Nothing here checks its callers.
//! tools/erase writes the files that say so in their first line.
//!
//! `percpu_gate` is the running gate: a call of `Pass` or `Control` acts through a seat (`PassSeat`, `ControlSeat`), and each method
//! of a seat is one atomic step. `percpu_words` encodes the gate's words, and `atomic_table` has the atomics. `percpu_core` has
//! the limits, starts and phases of a gate. Its machine, which replays a schedule of steps on plain numbers, is in the package blkq.
//!
//! A precondition may name a `view`, as in `self.view.standing.held`: what the owner of a seat knows of the gate from its own steps
//! (docs/GATE.md, "The running gate"). A view exists only in proofs; it isn't a field.
#![forbid(unsafe_code)]
#![allow(missing_docs, missing_debug_implementations, clippy::all, clippy::pedantic, rustdoc::all)]

pub mod atomic_table;
pub mod fallible;
pub mod percpu_core;
pub mod percpu_gate;
pub mod percpu_words;

use core::sync::atomic::AtomicU64;

/// Panics at a step on a word that its table doesn't have. A caller that meets the preconditions takes no such step.
#[cold]
#[inline(never)]
#[track_caller]
fn past_the_end(word: usize, words: usize) -> ! {
    panic!("index out of bounds: a table of {words} words has no word {word}")
}
