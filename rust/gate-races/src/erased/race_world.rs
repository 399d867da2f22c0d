// Erased from crates/race_world/src/lib.rt by tools/erase: edit that file.
//! A race: a gate, and for each actor the calls that it makes, one after another.
//!
//! A call of a pass or of the control takes some of the gate's atomic steps: docs/GATE.md has the table. Which step comes next
//! depends on the replies to those before it. [`PassStage`] and [`ControlStage`] are the progress of a call: `first` is its
//! beginning, `step` the next step, and `after` the stage after the reply to that step, until it `Ends` with its [`Answer`]. A call
//! that waits takes one step, a look at the shared word, and `awaited` is the condition that has to hold before it. A call that sets
//! a flag takes no step. [`Answers`] is the list of the answers to the calls of an actor: lists share their beginnings, so a copy
//! takes no memory.
//!
//! A [`Race`] defines how the gate starts and which calls each pass and the control make. Between two atomic steps it
//! is at a [`Moment`]: the state of the gate, and the place of each actor in its calls. `next_events` are the steps
//! that may come next, at most one for each actor, and `after` is the moment that a step leads to. A call begins as
//! soon as the previous call has its answer. A call that can't be made takes no step, and is passed over. A call that
//! waits takes its step once its condition holds. So a schedule of a race is a list of the gate's events.
//!
//! Passes that make equal calls may be exchanged, by an [`Exchange`]. `settled` maps the moments that differ by such exchanges to one of
//! them, so that a search over a race, which is a [`Course`], keeps one moment instead of many.
//!
//! The laws are contracts of functions that do nothing:
//!
//! - `races_are_runs`: a schedule of a race is a run of the gate's machine. `exchanges_keep_races`: it is still a schedule after an
//!   exchange.
//! - `no_call_is_stuck`: at each moment of each race, every call under way has a next step, and the gate allows that step. The
//!   exception is a call that awaits a condition.
//! - `pass_calls_keep_the_contracts` and `control_calls_keep_the_contracts`: a call's answer, and the seat's knowledge afterwards,
//!   meet the clauses of the running call in `percpu_gate`. Other seats may take any steps meanwhile.
//! - `races_are_answered`: in every run of every race, every answer to every actor meets these clauses, one call after another.
//!
//! No law says that the running code takes these steps in this order. For that, compare the code of `percpu_gate` with this crate.

mod actor;
mod answer;
mod answers;
mod awaited;
mod control_call;
mod control_place;
mod control_stage;
mod course;
mod exchange;
mod fingerprint;
mod moment;
mod pass_call;
mod pass_place;
mod pass_stage;
mod places;
mod race;
mod race_course;
mod settling;
mod waiting;

pub use crate::erased::percpu_words::Mode;
pub use actor::is_same_actor;
pub use answer::Answer;
pub use answers::Answers;
pub use awaited::{Awaited, Flag};
pub use control_call::ControlCall;
pub use control_place::ControlProgress;
pub use control_stage::{ControlStage, Seen};
pub use course::Course;
pub use exchange::Exchange;
pub use moment::Moment;
pub use pass_call::{Asked, Count, PassCall};
pub use pass_place::PassProgress;
pub use pass_stage::{Dropped, PassStage};
pub use race::{PassCalls, Race, same_calls};
