// Erased from crates/gate_replay/src/replay.rt by tools/erase: edit that file.
//! The replay of a schedule: its text, and how it ends.

use crate::erased::gate_replay::reply_lines::{push_end, push_reply, push_stuck};
use crate::erased::gate_replay::schedule::Schedule;
use crate::erased::gate_replay::schedule_parser::parse_schedule;
use crate::erased::line_text::ScriptFault;
use crate::erased::percpu_core::{Memory, World};

/// How a replay ended.
#[derive(Clone, Copy, Debug, PartialEq, Eq)]
pub enum Replayed {
    /// Every step was taken.
    Whole,
    /// A step wasn't enabled, and those after it weren't tried.
    Stuck,
}

/// What the replay of a schedule shows.
#[derive(Debug)]
pub struct Replay {
    text: Vec<u8>,
    ended: Replayed,
}

impl Replay {
    /// Makes a replay with this text and this end; no memory is taken.
    pub fn new(text: Vec<u8>, ended: Replayed) -> Replay {
        Replay { text, ended }
    }

    /// Returns a line for each step that was taken, and then the line of the end, or of the step that isn't enabled.
    pub fn text(&self) -> &[u8] {
        self.text.as_slice()
    }

    /// Returns which of the two lines ends it.
    pub fn ended(&self) -> Replayed {
        self.ended
    }
}

/// Takes the steps of a schedule one after another. Returns a line for each reply, and then a line for the world that they leave,
/// or for the first step that isn't enabled.
///
/// # Preconditions
///
/// - `IsWithinLimits(opening_in(schedule))`.
fn played(schedule: &Schedule) -> Result<Replay, Memory> {
    let mut world =
        World::with_kills(schedule.slots, schedule.passes, schedule.start, schedule.kills, schedule.words.as_slice())?;
    let mut text = Vec::new();
    for (line, event) in schedule.events.as_slice() {
        match world.step(*event) {
            Ok(reply) => push_reply(&mut text, reply)?,
            Err(why) => {
                push_stuck(&mut text, *line, why)?;
                return Ok(Replay { text, ended: Replayed::Stuck });
            }
        }
    }
    push_end(&mut text, &world)?;
    Ok(Replay { text, ended: Replayed::Whole })
}

/// Returns what the replay of the schedule that a text means shows.
///
/// Returns `Parse` exactly if the text means no schedule, with its first fault. Returns `Memory` only if memory is refused.
pub fn replay_text(text: &[u8]) -> Result<Replay, ScriptFault> {
    let schedule = parse_schedule(text)?;
    played(&schedule).map_err(|_: Memory| ScriptFault::Memory)
}
