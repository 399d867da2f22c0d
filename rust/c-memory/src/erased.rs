//! The table of the package percpu-gate, over what it asks of the module around it, and the sources below both libraries without their
//! contracts. tools/erase writes the files that say so in their first line.
//!
//! C's pointers need `unsafe`: `loose_box` takes a box apart and puts it together.
#![allow(
    missing_docs,
    missing_debug_implementations,
    clippy::all,
    clippy::pedantic,
    clippy::undocumented_unsafe_blocks
)]

/// The table of words that threads share.
#[path = "../../percpu-gate/src/erased/atomic_table.rs"]
pub mod atomic_table;
pub mod loose_box;

pub use percpu_gate::erased::fallible;

use core::sync::atomic::AtomicU64;

/// A step on a word that its table doesn't have ends the program by one instruction. A panic would take a frame in each call of a
/// library, and what is stored on the stack delays the exchange that comes next.
#[inline(always)]
fn past_the_end(_word: usize, _words: usize) -> ! {
    crate::trap()
}
