// Erased from crates/gate_replay/src/lib.rt by tools/erase: edit that file.
//! Schedules of a gate, written down and replayed.
//!
//! A schedule is text. Its first line names the format, its second a world: the slots, the passes, how the gate starts, its kills
//! and its guarded words. Each further line is one atomic step of a pass or of the control. [`parse_schedule`] returns the
//! [`Schedule`] that a text means, or the first fault of the text. [`replay_text`] takes the steps one after another in the gate's
//! machine, `percpu_core`'s `World`. It returns a line for each reply, and then the line of the end, or of the first step that
//! isn't enabled.

mod event_line;
mod replay;
mod reply_lines;
mod schedule;
mod schedule_parser;
mod world_line;

pub use event_line::is_all_digits;
pub use replay::{Replay, Replayed, replay_text};
pub use reply_lines::{push_delta, push_end, push_reply};
pub use schedule::{Events, GuardedWords, Schedule};
pub use schedule_parser::{next_world, parse_schedule};
pub use world_line::WorldLine;
