// Erased from crates/race_world/src/actor.rt by tools/erase: edit that file.
//! The actor of an event.

use crate::erased::percpu_core::Event;

/// Whether both events are steps of the same pass, or both of the control.
pub fn is_same_actor(event: Event, other: Event) -> bool {
    match (event, other) {
        (Event::Pass(one, _), Event::Pass(another, _)) => one == another,
        (Event::Control(_), Event::Control(_)) => true,
        _ => false,
    }
}
