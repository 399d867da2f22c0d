// Erased from crates/uses/src/lanes.rt by tools/erase: edit that file.
//! A thread with a tag of its own, which keeps its reference to the gate between requests.

use crate::erased::fallible::{AllocError, TryVec};
use crate::erased::freeze_queue::{BiasedTag, BlockQueue, FreezeFault, Freezer};
use crate::erased::queue_limits::Limits;
use crate::erased::thread;
use crate::erased::uses::cutting::{Command, commands};
use crate::erased::uses::settings::change_limits;

/// A request to a device: its first sector, and how many sectors it moves.
#[derive(Clone, Copy, Debug, PartialEq, Eq)]
pub struct Request {
    pub first: u32,
    pub sectors: u32,
}

/// Returns the commands for the next request of a thread, and leaves its tag entered. The tag keeps its reference between requests:
/// so a request of a busy thread costs a store and a load. Waits while the queue is frozen. If memory is refused, the tag leaves.
///
/// Linux: `blk_mq_submit_bio` (block/blk-mq.c), with the request that a plug keeps.
///
/// # Preconditions
///
/// - `queue_of(tag)` is `queue`.
/// - `slot` is less than `queue.slots()`.
/// - `in_now(tag)` is `false`.
pub fn submit_next(
    queue: &BlockQueue,
    tag: &mut BiasedTag,
    slot: u32,
    request: Request,
) -> Result<Vec<Command>, AllocError> {
    debug_assert!(slot < queue.slots());
    queue.enter_by_lane(tag, slot);
    match commands(&tag.limits(), u64::from(request.first), request.sectors) {
        Ok(made) => Ok(made),
        Err(why) => {
            let _put = queue.leave_by_lane(tag, slot, true);
            Err(why)
        }
    }
}

/// Runs requests one after another, and returns the commands for each. Other threads may change the limits between two of them.
///
/// # Preconditions
///
/// - `queue_of(tag)` is `queue`.
/// - `slot` is less than `queue.slots()`.
/// - `in_now(tag)` is `false`.
pub fn run_requests(
    queue: &BlockQueue,
    tag: &mut BiasedTag,
    slot: u32,
    requests: &[Request],
) -> Result<Vec<Vec<Command>>, AllocError> {
    debug_assert!(slot < queue.slots());
    let mut made = Vec::new();
    for request in requests {
        let cut = submit_next(queue, tag, slot, *request)?;
        // Here the device moves the sectors. No thread changes the limits meanwhile.
        let _put = queue.leave_by_lane(tag, slot, true);
        made.try_push(cut)?;
    }
    Ok(made)
}

/// The commands for the requests of a thread, and how another thread's changes of limits went.
#[derive(Debug)]
pub struct Driven {
    pub commands: Result<Vec<Vec<Command>>, AllocError>,
    pub changed: Result<(), FreezeFault>,
}

/// Makes these changes one after another until one is refused. Limits for another maximum of the hardware are left out.
///
/// # Preconditions
///
/// - `freezer` belongs to `queue`.
fn change_all(queue: &BlockQueue, freezer: &mut Freezer, changes: &[Limits]) -> Result<(), FreezeFault> {
    for limits in changes {
        if limits.hw() == freezer.limits().hw() {
            change_limits(queue, freezer, *limits)?;
        }
    }
    Ok(())
}

/// Runs requests on this thread, while another one changes the limits: each request is cut by the limits under which it entered.
///
/// # Preconditions
///
/// - `queue_of(tag)` is `queue`.
/// - `freezer` belongs to `queue`.
/// - `queue.slots()` is at least 1.
/// - `in_now(tag)` is `false`.
pub fn drive(queue: &BlockQueue, tag: BiasedTag, freezer: Freezer, requests: &[Request], changes: &[Limits]) -> Driven {
    debug_assert!(0 < queue.slots());
    let (mut tag, mut freezer) = (tag, freezer);
    let (commands, changed) = thread::join(
        move || -> Result<Vec<Vec<Command>>, AllocError> { run_requests(queue, &mut tag, 0, requests) },
        move || -> Result<(), FreezeFault> { change_all(queue, &mut freezer, changes) },
    );
    Driven { commands, changed }
}
