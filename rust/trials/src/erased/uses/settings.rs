// Erased from crates/uses/src/settings.rt by tools/erase: edit that file.
//! The limits of a queue, changed while other threads submit to it.

use crate::erased::fallible::AllocError;
use crate::erased::freeze_queue::{BlockQueue, Enter, FreezeFault, Freezer, Tag};
use crate::erased::queue_limits::Limits;
use crate::erased::thread;
use crate::erased::uses::cutting::{Command, commands};

/// Returns the commands for a request that enters a queue, all of them by the limits that its tag reads. These don't change until
/// it leaves, whatever a freezer does meanwhile. The thread that ends the request leaves with the tag. Returns None if the queue is
/// frozen.
///
/// Linux: `blk_mq_submit_bio` (block/blk-mq.c).
///
/// # Preconditions
///
/// - `tag` belongs to `queue`.
/// - `slot` is less than `queue.slots()`.
/// - `tag.entered()` is `false`.
/// - `start` is less than `2^32`.
pub fn submit(
    queue: &BlockQueue,
    tag: &mut Tag,
    slot: u32,
    start: u64,
    count: u32,
) -> Result<Option<Vec<Command>>, AllocError> {
    debug_assert!(slot < queue.slots());
    debug_assert!(!tag.entered());
    debug_assert!(start < 1 << 32);
    match queue.try_enter(tag, slot) {
        Enter::Again => return Ok(None),
        Enter::Entered => {}
    }
    let limits = queue.limits(tag);
    match commands(&limits, start, count) {
        Ok(made) => Ok(Some(made)),
        Err(why) => {
            queue.leave(tag, slot);
            Err(why)
        }
    }
}

/// Enters, and waits until the limits in force are these. By the time a tag enters after a change of limits, the freezer may have
/// made another change. So the tag compares what it reads, and leaves and enters again if that differs.
///
/// # Preconditions
///
/// - `tag` belongs to `queue`.
/// - `slot` is less than `queue.slots()`.
/// - `tag.entered()` is `false`.
pub fn enter_under(queue: &BlockQueue, tag: &mut Tag, slot: u32, limits: &Limits) {
    debug_assert!(slot < queue.slots());
    debug_assert!(!tag.entered());
    loop {
        queue.enter(tag, slot);
        if queue.limits(tag) == *limits {
            return;
        }
        queue.leave(tag, slot);
        thread::yield_now();
    }
}

/// Changes the limits of a queue to which other threads submit: it is frozen, drained, set and thawed.
///
/// # Preconditions
///
/// - `freezer` belongs to `queue`.
/// - `limits.hw()` is `freezer.queue.hardware`.
pub fn change_limits(queue: &BlockQueue, freezer: &mut Freezer, limits: Limits) -> Result<(), FreezeFault> {
    freezer.freeze(queue)?;
    // Drained: no request is in flight, and none can enter.
    match freezer.set(queue, limits) {
        Ok(()) => {}
        Err(_) => unreachable!(),
    }
    match freezer.thaw(queue) {
        Ok(_) => Ok(()),
        Err(_) => unreachable!(),
    }
}
