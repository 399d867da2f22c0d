// Erased from crates/freeze_queue_c/src/life.rt by tools/erase: edit that file.
//! The beginning and the end of queues and their handles.

use crate::erased::c_answers::{DrawnNumber, Misuse, of_put, of_unit};
use crate::erased::freeze_queue_c::freezer_handle::FreezerHandle;
use crate::erased::freeze_queue_c::number::of_done;
use crate::erased::freeze_queue_c::open_freezer::{KeptFreezer, OpenFreezer};
use crate::erased::freeze_queue_c::plain_limits::PlainLimits;
use crate::erased::freeze_queue_c::refusal::Refusal;
use crate::erased::freeze_queue_c::tag_handle::TagHandle;
use crate::erased::percpu_gate::Put;

/// The last facts of a queue that has ended.
#[derive(Debug)]
#[repr(C)]
pub struct Final {
    pub dead: bool,
    pub kills: u64,
    pub releases: u64,
    pub limits: PlainLimits,
}

/// Makes the freezer of a new queue, for a closed handle. Refuses with Open, the limits' faults, Size or Memory.
fn make(
    freezer: &mut FreezerHandle,
    number: &DrawnNumber,
    limits: &PlainLimits,
    slots: u32,
    tags: u32,
) -> Result<(), Refusal> {
    match freezer.closed() {
        Ok(()) => (),
        Err(why) => return Err(Refusal::OfMisuse(why)),
    };
    let open = OpenFreezer::new(*number, limits, slots, tags)?;
    match freezer.open(open) {
        Ok(()) => Ok(()),
        Err(why) => Err(Refusal::OfMisuse(why)),
    }
}

/// Makes a live queue with these limits, this many slots (1 to 512) and tags (1 to 1,023), for a closed freezer handle. The queue counts
/// on its slots. Refuses with Open, the limits' faults (25 to 28), Size or Memory. Linux: `blk_mq_init_queue`, since 6.9
/// `blk_mq_alloc_queue` (block/blk-mq.c).
#[unsafe(no_mangle)]
pub extern "C" fn freeze_queue_new_numbered(
    freezer: &mut FreezerHandle,
    number: &DrawnNumber,
    limits: &PlainLimits,
    slots: u32,
    tags: u32,
) -> u32 {
    of_done(make(freezer, number, limits, slots, tags))
}

/// Gives the next tag of this freezer to a closed handle.
fn give(chosen: &mut OpenFreezer, tag: &mut TagHandle) -> Result<(), Misuse> {
    tag.closed()?;
    let given = chosen.next_tag()?;
    tag.put_back(given);
    Ok(())
}

/// Gives the next tag of the queue, which is the tag that was given back last, to a closed tag handle. Refuses with Closed, Open,
/// NoneWaits or Memory.
#[unsafe(no_mangle)]
pub extern "C" fn freeze_queue_next_tag(freezer: &mut FreezerHandle, tag: &mut TagHandle) -> u32 {
    let Some(mut open) = freezer.take() else {
        return of_unit(Err(Misuse::Closed));
    };
    let answer = give(&mut open, tag);
    freezer.put_back(open);
    of_unit(answer)
}

/// Has the freezer take back the tag of a handle, unless that is refused.
///
/// # Preconditions
///
/// - `NumbersTell(chosen, tag.held.tag)`: queues of one number are one queue.
fn give_back(chosen: &mut OpenFreezer, tag: &mut TagHandle) -> Result<Put, Misuse> {
    let Some(mut given) = tag.take() else {
        return Err(Misuse::Closed);
    };
    if let Err(why) = chosen.refuse_back(&given) {
        tag.put_back(given);
        return Err(why);
    }
    let Some(put) = given.end_bias() else {
        tag.put_back(given);
        return Err(Misuse::InUse);
    };
    chosen.take_back(*given);
    Ok(put)
}

/// Gives back a tag that isn't in, and ends its bias. Returns 1 if the queue is drained by that, otherwise 0. Allocates nothing: the
/// freezer has room for all tags from the start. Refuses with Closed, Foreign or Entered, or with InUse while a freeze has the tag in
/// hand, which no use of handles leads to.
///
/// # Preconditions
///
/// - `NumbersTellOn(freezer.held.freezer, tag.held.tag)`.
#[unsafe(no_mangle)]
pub extern "C" fn freeze_queue_give_tag_back(freezer: &mut FreezerHandle, tag: &mut TagHandle) -> u32 {
    let Some(mut open) = freezer.take() else {
        return of_put(Err(Misuse::Closed));
    };
    let answer = give_back(&mut open, tag);
    freezer.put_back(open);
    of_put(answer)
}

/// The number of a tag's queue, or 0 for a closed handle.
#[unsafe(no_mangle)]
pub extern "C" fn freeze_queue_tag_number(tag: &mut TagHandle) -> u64 {
    let Some(open) = tag.take() else {
        return 0;
    };
    let number = open.number().drawn;
    tag.put_back(open);
    number
}

/// The number of a freezer's queue, or 0 for a closed handle.
#[unsafe(no_mangle)]
pub extern "C" fn freeze_queue_number(freezer: &mut FreezerHandle) -> u64 {
    let Some(open) = freezer.take() else {
        return 0;
    };
    let number = open.number().drawn;
    freezer.put_back(open);
    number
}

/// Frees the box of a tag handle, and closes it. If the tag wasn't given back, its queue counts it as out forever.
#[unsafe(no_mangle)]
pub extern "C" fn freeze_queue_free_tag(tag: &mut TagHandle) {
    drop(tag.take());
}

/// Frees the box of a freezer handle, and closes it.
#[unsafe(no_mangle)]
pub extern "C" fn freeze_queue_free_freezer(freezer: &mut FreezerHandle) {
    drop(freezer.take());
}

/// Puts back a freezer whose queue hasn't ended. Returns the number of the reason, or of Memory.
///
/// # Preconditions
///
/// - `freezer.held.freezer` is `None`.
fn restore(freezer: &mut FreezerHandle, kept: KeptFreezer) -> u32 {
    let KeptFreezer { why, freezer: back } = kept;
    let Some(back) = back else {
        return why.number();
    };
    match freezer.open(back) {
        Ok(()) => why.number(),
        Err(memory) => memory.number(),
    }
}

/// Ends a queue, and closes the handle: freezes the queue for the last time if it is live, and takes in the tags that no handle has.
/// Refuses with Closed; with 20 if tags that were given out aren't back; with 21 if the queue is live and was killed 2^40 times. If
/// somebody else has a share of the queue, which no use of handles leads to, it returns InUse with everything unchanged. It returns
/// Memory if such a late refusal finds no memory to put the queue back: then the freezer is gone. Linux: `blk_mq_destroy_queue`
/// (block/blk-mq.c).
#[unsafe(no_mangle)]
pub extern "C" fn freeze_queue_remove(freezer: &mut FreezerHandle, last: &mut Final) -> u32 {
    let Some(open) = freezer.take() else {
        return Misuse::Closed.number();
    };
    if open.tags_out() > 0 {
        freezer.put_back(open);
        return 20;
    }
    match open.end() {
        Ok(ended) => {
            *last = ended;
            0
        }
        Err(kept) => restore(freezer, kept),
    }
}
