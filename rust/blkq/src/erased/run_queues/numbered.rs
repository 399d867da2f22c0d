// Erased from crates/run_queues/src/numbered.rt by tools/erase: edit that file.
//! Numbers of requests and completions.

/// An item with a number of its own: requests are pushed as 0, 1, 2 and so on, and a completion has the number of its request.
pub trait Numbered {
    /// Returns its number.
    fn number(&self) -> u32;
}
