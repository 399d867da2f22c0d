// Erased from crates/queue_core/src/parked.rt by tools/erase: edit that file.
//! A parked pass.

use crate::erased::percpu_gate::Pass;
use crate::erased::queue_core::limit_words::LIMIT_WORDS;

/// The pass of a tag that is parked in its lane. It still has its reference, unless the freezer has dropped it.
pub struct ParkedPass {
    pub(crate) pass: Pass<LIMIT_WORDS>,
    /// The slot on which the freezer leaves with it.
    pub(crate) slot: u32,
}
