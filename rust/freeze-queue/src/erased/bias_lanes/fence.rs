// Erased from crates/bias_lanes/src/fence.rt by tools/erase: edit that file.
//! The heavy fence.

use crate::erased::lane_table;

/// The fact that the heavy fence was issued in an epoch.
pub struct Fenced {
    #[allow(dead_code)] // only proofs read it
    pub(crate) epoch: u64,
}

/// Orders the freezer's store of the epoch and its looks with the owners' stores and loads.
///
/// Each step is sequentially consistent here, so there is nothing to do. If the owners' steps are weaker, this is a
/// barrier for all processors: each owner's store is visible to the looks, or the owner finds the new epoch.
pub(crate) fn heavy_fence() {
    lane_table::heavy_fence();
}
