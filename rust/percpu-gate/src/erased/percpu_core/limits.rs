// Erased from crates/percpu_core/src/limits.rt by tools/erase: edit that file.
//! The limits of every gate, which keep its numbers small.

/// Maximum number of references that one pass holds.
pub const HELD_LIMIT: u32 = 65_535;

/// Maximum number of passes of a gate.
pub const PASS_LIMIT: u32 = 1_024;

/// Maximum number of slots of a gate.
pub const SLOT_LIMIT: u32 = 512;

/// Maximum number of guarded words of a gate.
pub const WORD_LIMIT: usize = 8;

/// Maximum number of kills of a gate.
pub const KILL_LIMIT: u64 = 1 << 40;
