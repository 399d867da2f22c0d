//! The lanes by which the library's C code enters and leaves without a call of Rust. `include/freeze_queue/lane.h` describes them.

use crate::erased::freeze_queue_c::{OpenTag, TagHandle};
use crate::erased::lane_table::Word;
use core::ptr;
use core::sync::atomic::AtomicU64;

/// A lane, and the words of its queue that C needs to step in it. `freeze_queue.c` declares the same struct.
#[derive(Debug)]
#[repr(C)]
pub struct Found {
    lane: *const Word,
    epoch: *const AtomicU64,
    slots: u32,
}

/// Returns the lane by which a tag is entered; null if the tag entered at the gate or there is no heavy fence.
#[unsafe(no_mangle)]
pub extern "C" fn freeze_queue_find_lane(tag: &mut TagHandle) -> Found {
    let mut found = None;
    if let Some(open) = tag.take() {
        found = lane_of(&open);
        tag.put_back(open);
    }
    found.unwrap_or(Found { lane: ptr::null(), epoch: ptr::null(), slots: 0 })
}

fn lane_of(open: &OpenTag) -> Option<Found> {
    if !open.tag.entered() || !open.tag.is_biased() {
        return None;
    }
    let (lane, epoch) = open.queue.lanes.table.shared.lane(open.tag.lane())?;
    Some(Found { lane, epoch, slots: open.queue.slots() })
}

/// Leaves by the lane, for a tag with which C has left. If the bias is over, the tag isn't entered, as if its owner had been idle by then.
#[unsafe(no_mangle)]
pub extern "C" fn freeze_queue_rest_in_lane(tag: &mut TagHandle) {
    let Some(mut open) = tag.take() else {
        return;
    };
    let open_tag = &mut *open;
    let _still_biased = open_tag.tag.leave_biased(&open_tag.queue);
    tag.put_back(open);
}
