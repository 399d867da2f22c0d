//! A block request queue in front of a disk in memory, and the gate that freezes it, as a reference for tests of other queues and gates.
//!
//! - [`run`] runs a script of reads, writes, freezes and settings on several threads. Its answer is what one thread would write, taking
//!   the script line by line, and then the disk.
//! - [`replay`] takes a schedule, the atomic steps of a gate one after another, and returns the reply to each. A gate of your own that
//!   takes the same steps has to give the same replies.
//!
//! Both are functions from bytes to bytes. The program `blkq` does the same from standard input to standard output.
//!
//! ```
//! use blkq::Config;
//!
//! let script = b"blkq 2\ndisk 8 hw 8\nwrite 2 3 61\nread 1 2\n";
//! let answer = blkq::run(script, Config::default())?;
//! assert_eq!(answer, b"3 ok 3\n4 ok 2 00*512,61*512\ndisk 00*1024,61*1536,00*1536\n");
//! # Ok::<(), blkq::RunError>(())
//! ```
//!
//! docs/FORMATS.md of the repository, installed as blkq(5), has both formats, and each reason for which an input is refused. The crate
//! `gate-races` lists the outcomes of all interleavings of calls of a gate.
//!
//! # What is proved, and what isn't
//!
//! The functions are in `src/erased`: Rust that was made by a program that removes the contracts from proved sources. It is proved of those
//! sources that for every input, and every number of workers, slots and tags, a run that succeeds writes the answer
//! of one thread, and a refused input is refused for the fault that the format names. These aren't proved: the program that removes the
//! contracts, its stand-ins for threads, locks and memory, the Rust compiler, and this file. Two files have `unsafe`,
//! `src/erased/pointers.rs` and `src/erased/crossbeam_queue.rs`. Each says why.
//!
//! The module `erased` is public only for the programs and the crates above, and isn't part of the stable API: its functions trust
//! their preconditions, so don't call them.
//!
//! # Memory
//!
//! If memory is refused, a function returns an error that says so, and can be called again. Stable Rust can't report that the
//! few bytes which the standard library allocates for a thread were refused: then the program ends.

mod config;
#[doc(hidden)]
pub mod erased;
mod errors;
mod replay;
mod run;
#[doc(hidden)]
pub mod text;

pub use config::Config;
pub use errors::{LineError, Reason, ReplayError, RunError};
pub use replay::{Replay, replay};
pub use run::run;

/// Compiles the example in README.md.
#[cfg(doctest)]
#[doc = include_str!("../README.md")]
mod readme {}
