// Erased from crates/freeze_queue_c/src/lib.rt by tools/erase: edit that file.
//! The queue for C programs: one export for each call of a tag and of the freezer of `queue_core`. C reads
//! include/freeze_queue.h.
//!
//! C has a handle for the freezer and one for each tag, a `bool` and a pointer, zero while closed (`freezer_handle`,
//! `tag_handle`). An open handle leads to a box that C can't look into (`freezer_held`, `tag_held`, over the crate
//! `loose_box`): a share of the queue beside the freezer or the tag (`open_freezer`, `open_tag`). So freeing a handle
//! doesn't take the queue from the others.
//!
//! Each export (`tag_calls`, `freezer_calls`, `life`) takes the box out of the handle, makes the call
//! and puts the box back. Misuse by C is tested before the queue is called, and returns a number of `Misuse` (the crate
//! `c_answers`). Other refusals return a number of `refusal`; the results of the queue have their numbers in `number`.
//! `give_tag_back` takes two handles, and knows by the queue's `DrawnNumber` whether they are of one queue. Limits are four
//! plain numbers to C (`plain_limits`), which are checked in each call that takes them; `first_piece` cuts by them.
//!
//! A tag is biased only if `freeze_queue_leave_biased` parks it, which the waits of C call. While a freeze has such a tag in hand, a try
//! of its owner returns that the queue is frozen, and a look (`freeze_queue_look_in`) returns that the owner has to try again once that
//! call of the freezer is over.
//!
//! Nothing here waits. If a call returns LAST, DRAINED or LIVE AGAIN, its caller wakes the threads that wait for this, or stops polling.

mod begun;
mod first_piece;
mod freezer_calls;
mod freezer_handle;
mod freezer_held;
mod life;
mod number;
mod open_freezer;
mod open_tag;
mod plain_limits;
mod refusal;
mod tag_calls;
mod tag_handle;
mod tag_held;
#[cfg(test)]
mod tests;

pub use open_tag::OpenTag;
pub use tag_handle::TagHandle;
