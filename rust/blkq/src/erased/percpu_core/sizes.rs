// Erased from crates/percpu_core/src/sizes.rt by tools/erase: edit that file.
//! The sizes of a gate.

/// The number of slots and of guarded words of a gate.
#[derive(Clone, Copy, Debug, PartialEq, Eq)]
pub struct Sizes {
    pub slots: usize,
    pub words: usize,
}
