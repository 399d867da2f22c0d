// Erased from crates/percpu_core/src/schedule.rt by tools/erase: edit that file.
//! A whole schedule on a world.

use crate::erased::fallible::{AllocError, TryVec};
use crate::erased::percpu_core::Reply;
use crate::erased::percpu_core::event::Event;
use crate::erased::percpu_core::replay_fault::ReplayFault;
use crate::erased::percpu_core::world::World;

/// Takes the events one after another, and returns their replies.
///
/// Memory for all replies is allocated first, so `Memory` changes nothing. After `Stuck` the world is as it was before
/// the event that wasn't enabled.
pub fn replay(world: &mut World, events: &[Event]) -> Result<Vec<Reply>, ReplayFault> {
    let mut replies = Vec::try_with_room(events.len()).map_err(|_refused: AllocError| ReplayFault::Memory)?;
    for (at, event) in events.iter().enumerate() {
        match world.step(*event) {
            Ok(reply) => replies.try_push(reply).unwrap(),
            Err(why) => return Err(ReplayFault::Stuck { at, why }),
        }
    }
    Ok(replies)
}
