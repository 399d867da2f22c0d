// Erased from crates/blkq_run/src/lib.rt by tools/erase: edit that file.
//! From the bytes of a reader to the bytes of a writer: scripts that are run, and schedules that are replayed.
//!
//! [`run_bytes`] reads a script and writes a reply to each of its lines, and then the disk. Data flows one way: `counted_io` reads,
//! `answer` makes the output, `counted_io` writes, and [`run`] joins them. [`replay_bytes`] does the same for a schedule, which is
//! a gate's atomic steps one after another; `gate_replay` takes the steps. [`command`] runs either, by its arguments, which
//! [`requested`] reads. The names of `counted_io`, `blk_workers` and `gate_replay` that callers need are re-exported.

mod fault;
mod program;
mod replay_report;
mod replay_run;
mod run;

pub use crate::erased::blk_workers::{Config, NoStall, Point, Stall};
pub use crate::erased::counted_io::Counted;
pub use crate::erased::gate_replay::{Replayed, Schedule, parse_schedule};
pub use fault::Fault;
pub use program::{Task, command, command_held, refuse_words, requested};
pub use replay_run::replay_bytes;
pub use run::{MOST_READ, run_bytes};
