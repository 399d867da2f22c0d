// Erased from crates/freeze_queue/src/enter.rt by tools/erase: edit that file.
//! The result of an attempt to enter.

/// The result of an attempt to enter.
#[derive(Clone, Copy, Debug, PartialEq, Eq)]
pub enum Enter {
    /// The tag is entered, until it leaves.
    Entered,
    /// The queue is frozen; for `try_enter_frozen` it is drained too. Linux: EAGAIN of `blk_queue_enter` with
    /// BLK_MQ_REQ_NOWAIT (block/blk-core.c).
    Again,
}
