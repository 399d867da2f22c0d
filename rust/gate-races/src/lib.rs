//! Lists what can happen when several actors call a gate, which counts references as Linux's `percpu_ref` does.
//!
//! A race is the calls of the actors. [`outcomes`] goes through every interleaving of their atomic steps and returns each outcome: what
//! the calls return, and a shortest schedule that leads there. The program `gate_races` does the same from standard input to standard
//! output.
//!
//! ```
//! // A try beside the start of a kill: it is given or refused.
//! let race = b"races 1\nworld 1 1 atomic 0\n0 live 0\nc mark_dead\n";
//! let outcomes = String::from_utf8(gate_races::outcomes(race)?).unwrap();
//! let tries: Vec<&str> = outcomes.lines().filter(|line| ["0 given", "0 refused"].contains(line)).collect();
//! assert_eq!(tries, ["0 given", "0 refused"]);
//! # Ok::<(), gate_races::RaceError>(())
//! ```
//!
//! In the repository, docs/races/README.md introduces the program and has the format of a race. [`blkq::replay()`] replays
//! a schedule of one gate.
//!
//! # What is proved, and what isn't
//!
//! The function is in `src/erased`: Rust that was made by a program that removes the contracts from proved sources. It is proved of those
//! sources that for every race, each outcome of some interleaving is written once, with a shortest schedule that leads to it. These aren't
//! proved: the program that removes the contracts, its stand-ins for maps and memory, the Rust compiler, and this file.
//!
//! The module `erased` is public only for the program, and isn't part of the stable API: its functions trust their preconditions, so don't
//! call them.

#[doc(hidden)]
pub mod erased;
mod error;
mod outcomes;

pub use blkq::{LineError, Reason};
pub use error::RaceError;
pub use outcomes::outcomes;

/// Compiles the example in README.md.
#[cfg(doctest)]
#[doc = include_str!("../README.md")]
mod readme {}
