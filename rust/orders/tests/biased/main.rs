//! The queue of biased tags, by the files of freeze-queue, over atomic numbers that take turns and whose relaxed and release stores wait in
//! a buffer: every order of two owners and a freezer, within a bound of switches.
#![allow(
    dead_code,
    unused_imports,
    unfulfilled_lint_expectations,
    unsafe_code,
    missing_docs,
    missing_debug_implementations,
    clippy::all,
    clippy::pedantic
)]

extern crate alloc;

#[path = "../shared/erased.rs"]
mod erased;
mod races;
#[path = "../shared/words.rs"]
mod words;
