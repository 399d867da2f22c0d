// Erased from crates/freeze_queue_c/src/freezer_calls.rt by tools/erase: edit that file.
//! The calls of the freezer. A closed handle returns Closed, or false if it is asked whether the queue is drained.

use crate::erased::c_answers::{Misuse, of_unit, write};
use crate::erased::freeze_queue_c::freezer_handle::FreezerHandle;
use crate::erased::freeze_queue_c::number::{of_set, write_begun, write_thawed};
use crate::erased::freeze_queue_c::plain_limits::PlainLimits;

/// Starts a freeze, and writes the depth. Returns 4 if a look after the freeze finds the queue drained; a leave may have returned
/// LAST too. Otherwise returns 0, and a later leave or refused try returns LAST, unless the queue is thawed first. Refuses with
/// Closed, DepthFull (17) or WornOut (21). Linux: `blk_freeze_queue_start` (block/blk-mq.c).
#[unsafe(no_mangle)]
pub extern "C" fn freeze_queue_start_freeze(freezer: &mut FreezerHandle, depth: &mut u32) -> u32 {
    let Some(mut open) = freezer.take() else {
        return write_begun(Err(Misuse::Closed), depth);
    };
    let answer = open.start_freeze();
    freezer.put_back(open);
    write_begun(answer, depth)
}

/// Whether the queue is frozen and every tag has left. Linux: `percpu_ref_is_zero` in `blk_mq_freeze_queue_wait` (block/blk-mq.c).
#[unsafe(no_mangle)]
pub extern "C" fn freeze_queue_poll_drained(freezer: &mut FreezerHandle) -> bool {
    let Some(mut open) = freezer.take() else {
        return false;
    };
    let drained = open.poll_drained();
    freezer.put_back(open);
    drained
}

/// Sets the limits of a drained queue. Refuses with Closed; with the limits' faults (25 to 28), or 29 if they are for other
/// hardware; with NotFrozen (18) or NotDrained (19). Linux: `queue_limits_commit_update` under a freeze, since 6.9
/// (block/blk-settings.c).
#[unsafe(no_mangle)]
pub extern "C" fn freeze_queue_set(freezer: &mut FreezerHandle, limits: &PlainLimits) -> u32 {
    let Some(mut open) = freezer.take() else {
        return of_set(Err(Misuse::Closed));
    };
    let answer = open.set(limits);
    freezer.put_back(open);
    of_set(answer)
}

/// Ends a freeze, and writes the depth that is left. Returns 5 if the queue is live again: the caller then wakes the threads that wait
/// to enter. Otherwise returns 0. Refuses with Closed or NotFrozen (18). Linux: `blk_mq_unfreeze_queue` (block/blk-mq.c).
#[unsafe(no_mangle)]
pub extern "C" fn freeze_queue_thaw(freezer: &mut FreezerHandle, depth: &mut u32) -> u32 {
    let Some(mut open) = freezer.take() else {
        return write_thawed(Err(Misuse::Closed), depth);
    };
    let answer = open.thaw();
    freezer.put_back(open);
    write_thawed(answer, depth)
}

/// Counts on slots (0) or on the shared word alone (1) from now on. Refuses with Closed or Mode. Linux:
/// `percpu_ref_switch_to_atomic_sync`, `percpu_ref_switch_to_percpu` (lib/percpu-refcount.c).
#[unsafe(no_mangle)]
pub extern "C" fn freeze_queue_mode(freezer: &mut FreezerHandle, mode: u32) -> u32 {
    let Some(mut open) = freezer.take() else {
        return of_unit(Err(Misuse::Closed));
    };
    let answer = open.mode(mode);
    freezer.put_back(open);
    of_unit(answer)
}

/// Writes the number of freezes that aren't thawed yet. Linux: `mq_freeze_depth` (include/linux/blkdev.h).
#[unsafe(no_mangle)]
pub extern "C" fn freeze_queue_depth(freezer: &mut FreezerHandle, depth: &mut u32) -> u32 {
    let Some(mut open) = freezer.take() else {
        return write(Err(Misuse::Closed), depth);
    };
    let answer = open.depth();
    freezer.put_back(open);
    write(answer, depth)
}

/// Writes the limits in force.
#[unsafe(no_mangle)]
pub extern "C" fn freeze_queue_limits_in_force(freezer: &mut FreezerHandle, limits: &mut PlainLimits) -> u32 {
    let Some(mut open) = freezer.take() else {
        return write(Err(Misuse::Closed), limits);
    };
    let answer = open.limits();
    freezer.put_back(open);
    write(answer, limits)
}
