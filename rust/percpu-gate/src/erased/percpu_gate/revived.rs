// Erased from crates/percpu_gate/src/revived.rt by tools/erase: edit that file.
//! The result of a revival.

/// Whether a revived gate had reached zero.
#[derive(Clone, Copy, Debug, PartialEq, Eq)]
pub enum Revived {
    /// ZERO was set when the initial reference was taken back.
    AtZero,
    /// A reference was still held, a refused try was in flight, or the mark was under way.
    Held,
}
