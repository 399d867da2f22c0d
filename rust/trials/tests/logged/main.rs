//! Tests which steps a call or a run takes at its gate: no contract says how many requests of a run enter on which slot, or that a request
//! enters once. The erased files are compiled again here over a gate that logs.

extern crate alloc;

mod calls;
#[allow(dead_code, unused_imports, clippy::all, clippy::pedantic)]
mod erased;
#[allow(dead_code)]
#[path = "../../../freeze-queue/tests/slots/gate.rs"]
pub mod gate;
mod runs;
#[allow(dead_code)]
#[path = "../shared/turns.rs"]
mod turns;
