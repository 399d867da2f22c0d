//! The queues by which the threads of a run hand requests, spares and completions on, by their own files and over numbers, locks and
//! conditions that take turns: every order of three or four threads' steps, within a bound of switches. No wake is lost in any. No contract
//! says that a thread which sleeps is woken, or how strong the order of a store is.
//!
//! The files name std's atomic numbers. So this crate has the name of std here, and `sync` its numbers.
#![allow(
    dead_code,
    unused_imports,
    unfulfilled_lint_expectations,
    unsafe_code,
    missing_docs,
    missing_debug_implementations,
    clippy::all,
    clippy::pedantic
)]

extern crate alloc;
extern crate self as std;
extern crate std as real;

pub use real::{cell, iter, marker, mem, time};

pub mod erased;
pub mod numbers;
mod races;
pub mod ring;

/// A pause is no step.
pub mod hint {
    pub fn spin_loop() {}
}

pub mod sync {
    pub mod atomic {
        pub use crate::numbers::AtomicU32;
        pub use orders::turns::{AtomicBool, AtomicUsize};
        pub use real::sync::atomic::Ordering;
    }
}
