// Erased from crates/gate_replay/src/schedule_parser.rt by tools/erase: edit that file.
//! From bytes to a schedule.

use crate::erased::fallible::TryVec;
use crate::erased::gate_replay::event_line;
use crate::erased::gate_replay::schedule::{Events, Schedule};
use crate::erased::gate_replay::world_line::{self, WorldLine};
use crate::erased::line_text::{ParseFault, ScriptFault, Statements, Why, Words, at_line};
use crate::erased::percpu_core::Event;

// Takes the line of the version.
fn gate(text: &mut Statements<'_>) -> Result<(), ParseFault> {
    let (line, words) = text.next_or(Why::NoVersion)?;
    at_line(line, world_line::gate(words))
}

/// Takes the next line, which has to describe a world.
///
/// Returns `Parse` with the first fault, which is a fault of the line after the last if no line is left. Returns `Memory` only if
/// memory is refused. The line is taken even if this fails.
pub fn next_world(text: &mut Statements<'_>) -> Result<WorldLine, ScriptFault> {
    let (line, words) = text.next_or(Why::NoWorld)?;
    world_line::world(line, words)
}

// Returns the step that the words of a line describe, if it has any.
fn event(line: u32, said: Result<Words<'_>, Why>) -> Result<Event, ParseFault> {
    let words = at_line(line, said)?;
    at_line(line, event_line::event(words))
}

// Returns the steps of the lines that are left.
fn events(mut text: Statements<'_>) -> Result<Vec<(u32, Event)>, ScriptFault> {
    let mut events = Vec::new();
    while let Some((line, said)) = text.next() {
        let event = event(line, said)?;
        events.try_push((line, event))?;
    }
    Ok(events)
}

/// Returns the schedule that a text means.
///
/// Returns `Parse` exactly if the text means no schedule, with the first fault of the text, in the order that docs/FORMATS.md
/// gives, and its line, counted from 1. Returns `Memory` only if memory is refused.
pub fn parse_schedule(bytes: &[u8]) -> Result<Schedule, ScriptFault> {
    let mut text = Statements::new(bytes)?;
    gate(&mut text)?;
    let world = next_world(&mut text)?;
    let events = events(text)?;
    Ok(Schedule {
        slots: world.slots,
        passes: world.passes,
        start: world.start,
        kills: world.kills,
        words: world.words,
        events: Events::new(events),
    })
}
