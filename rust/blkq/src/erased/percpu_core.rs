// Erased from crates/percpu_core/src/lib.rt by tools/erase: edit that file.
//! The machine of a gate, over the phases, starts and limits that the running gate has too. The package percpu-gate has those.

mod control_event;
mod control_standing;
mod event;
mod not_enabled;
mod pass_event;
mod pass_standing;
mod replay_fault;
mod schedule;
mod shared_word;
mod sizes;
mod slots;
mod world;
pub use ::percpu_gate::erased::percpu_core::*;
pub use control_event::ControlEvent;
pub use control_standing::ControlStanding;
pub use event::Event;
pub use not_enabled::NotEnabled;
pub use pass_event::PassEvent;
pub use pass_standing::{PassStanding, Pending};
pub use replay_fault::ReplayFault;
pub use schedule::replay;
pub use sizes::Sizes;
pub use world::World;
