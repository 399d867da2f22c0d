// Erased from crates/freeze_queue_c/src/open_freezer/ends.rt by tools/erase: edit that file.
//! The end of a queue.

use super::OpenFreezer;
use crate::erased::c_answers::{DrawnNumber, Misuse};
use crate::erased::freeze_queue_c::life::Final;
use crate::erased::freeze_queue_c::plain_limits::PlainLimits;
use crate::erased::freeze_queue_c::refusal::Refusal;
use crate::erased::pointers::Arc;
use crate::erased::queue_core::{BlockQueue, FreezeFault, Freezer, Tag};
use alloc::vec::Vec;

/// Why a queue may not end, and its freezer. The freezer is gone if there was no memory for it.
pub struct KeptFreezer {
    pub why: Refusal,
    pub freezer: Option<OpenFreezer>,
}

/// The parts of an open freezer, without its queue.
pub(super) struct Parts {
    pub number: DrawnNumber,
    pub tags: u32,
    pub waiting: Vec<Tag>,
    pub freezer: Freezer,
}

/// Freezes a queue that is to end, unless it is already frozen. Refuses with WornOut.
///
/// # Preconditions
///
/// - `freezer` belongs to `queue`.
fn freeze_to_end(freezer: &mut Freezer, queue: &BlockQueue) -> Result<(), FreezeFault> {
    if freezer.depth() == 0 {
        freezer.start_freeze(queue)?;
    }
    Ok(())
}

/// Makes the freezer again of a queue that doesn't end. The freezer is lost if there is no memory.
///
/// # Preconditions
///
/// - `parts.freezer.queue` is `queue`.
/// - `parts.tags` is `parts.freezer.tags`.
/// - `parts.tags` is at most `vec_capacity(parts.waiting)`.
/// - `All(Waits(queue), parts.waiting)`.
/// - `parts.waiting.len()` is at most `parts.tags`.
fn put_back(queue: BlockQueue, parts: Parts, why: FreezeFault) -> KeptFreezer {
    match Arc::try_new(queue) {
        Ok(queue) => KeptFreezer { why: Refusal::OfQueue(why), freezer: Some(OpenFreezer::of(queue, parts)) },
        Err(_) => KeptFreezer { why: Refusal::OfMisuse(Misuse::Memory), freezer: None },
    }
}

/// Ends a queue that nobody else has a share of, and whose tags no handle has. Refuses with WornOut.
///
/// # Preconditions
///
/// - `parts.freezer.queue` is `queue`.
/// - `parts.tags` is `parts.freezer.tags`.
/// - `parts.tags` is at most `vec_capacity(parts.waiting)`.
/// - `All(Waits(queue), parts.waiting)`.
/// - `parts.tags` is `parts.waiting.len()`.
fn remove(queue: BlockQueue, mut parts: Parts) -> Result<Final, KeptFreezer> {
    let limits = PlainLimits::of(parts.freezer.limits());
    if let Err(why) = freeze_to_end(&mut parts.freezer, &queue) {
        return Err(put_back(queue, parts, why));
    }
    match parts.freezer.remove(queue, parts.waiting) {
        Ok(left) => Ok(Final { dead: left.dead, kills: left.kills, releases: left.releases, limits }),
        Err(_) => unreachable!(),
    }
}

impl OpenFreezer {
    /// The number of tags that were given out and aren't back.
    pub fn tags_out(&self) -> u32 {
        (self.tags as usize).saturating_sub(self.waiting.len()) as u32
    }

    /// Ends the queue, whose tags no handle has. Refuses with WornOut, or with InUse if somebody has a share of the queue; returns
    /// Memory if there is no memory to put back a queue that is refused.
    ///
    /// # Preconditions
    ///
    /// - `missing_tags(self)` is 0.
    pub fn end(self) -> Result<Final, KeptFreezer> {
        let Self { before: _, queue, number, tags, waiting, freezer, after: _ } = self;
        let parts = Parts { number, tags, waiting, freezer };
        match Arc::try_unwrap(queue) {
            Ok(queue) => remove(queue, parts),
            Err(queue) => {
                Err(KeptFreezer { why: Refusal::OfMisuse(Misuse::InUse), freezer: Some(OpenFreezer::of(queue, parts)) })
            }
        }
    }
}
