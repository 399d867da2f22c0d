// Erased from crates/bias_lanes/src/views.rt by tools/erase: edit that file.
//! The views of the seats at the table.

/// The stage of an owner.
#[derive(Clone, Copy, Debug, PartialEq, Eq)]
pub enum Stage {
    /// The owner has its reference in hand, and its lane's word is 0.
    Unbiased,
    /// The owner's reference was parked, and its lane's word is 0.
    Parked,
    /// The lane is idle, and the owner has no request.
    Idle,
    /// The lane is busy, and the owner hasn't loaded the epoch yet.
    Trying,
    /// The owner's request is in. The lane is busy.
    Entered,
    /// The lane is idle, and the owner hasn't loaded the epoch yet.
    Leaving,
    /// The owner has found another epoch, and its lane is still idle or busy.
    Over,
}
