//! The erased gate and queue, in all orders of their steps, or in all with a bound of context switches.
//!
//! A test with threads sees the orders that the machine happens to take. This crate takes one after the other. It compiles the erased
//! files of `percpu-gate`, `freeze-queue` and `blkq` again, the same files, over stand-ins of its own: each atomic step, each lock and
//! unlock, each sleep and each wake goes to a scheduler.
//!
//! There are no threads. The next step of an actor follows from the results of its steps before. The scheduler therefore runs
//! the actor again from its start ([`Race::act`]), hands it those results, and unwinds it at its next step: once for each list of
//! results. A state is the values of all words, and the place of each actor. [`Orders`] goes through the states layer by layer,
//! each once, and counts the interleavings that lead there.
//!
//! A lock and a condition are words too, and a step on them may have to wait. A state in which no actor can step, and one hasn't
//! ended, is a deadlock or a lost wake: [`Fault::Stuck`] has a schedule that leads to it.
//!
//! If a race has too many orders, [`Orders::switches`] bounds the context switches beyond those that a wait needs. The races of `gate`, and
//! most of `queue`, have no bound. Two of `queue` have 4 and 6, those of `waits` 2 to 4, of `whole` 2 to 8, of `biased` 2 to 4, and of `whole_gate` 2, 3 and 9.
//!
//! The races are in `tests/`:
//!
//! - `gate`: the races of `examples/`, and random ones. They have the outcomes that `gate_races` finds, which searches by the
//!   machine and not by the code.
//! - `queue`: tags enter, read the limits twice, stay, leave and look in, beside nested freezes, new limits, thaws and the
//!   removal. The limits hold still under a tag, each drain has one last release, and each call is answered as its contract says.
//! - `waits`: tags that wait to enter, by lanes too, beside threads that freeze by one shared freezer; several threads
//!   that wait for one drain; and a thread that has the freezer alone. No wake is lost, and a wait changes nothing.
//!
//! The public crates have wakers, futures and any values behind their locks, which can't be written down: [`turns`] goes through the orders
//! of these, by threads that take turns.
//!
//! - `whole`: freeze-queue's own files. Threads and tasks enter beside freezes, wait in line for a tag, and wait for the drain; a device goes
//!   away, deadlines pass at any moment, futures are dropped, a waker panics. Each wait ends. A guarded value is never lent twice.
//! - `biased`: the queue of biased tags, with store buffers. Owners enter by their lanes and by the gate, beside freezes that take their biases away.
//! - `steps`: no orders, but which steps each call takes, one after another, in each life of a gate and of a queue.
//! - `whole_gate`: percpu-gate's own files. References lend a guarded value beside kills, changes, revivals and the removal.
//!
//! `tests/planted/run orders` plants mistakes in a copy, each of which they find.
//!
//! Two things aren't tried: loads out of order, and a thread that wakes with no call. Relaxed and release stores are seen late by [`turns`] alone;
//! the other races have none. A waiter tries once before it announces its wait, and not eleven times.
#![deny(unsafe_code)] // except in the lanes' table of freeze-queue

extern crate alloc;

mod actor;
mod drain_race;
#[doc(hidden)]
pub mod erased;
mod gate_race;
mod guarded;
mod memory;
mod op;
mod orders;
mod queue_race;
pub mod turns;
mod wait_race;

pub use actor::{at_once, join};
pub use drain_race::{AloneRace, DrainRace, Drained, Finish, LookRace};
pub use gate_race::{Call, GateRace};
pub use orders::{Ending, Fault, Found, Orders, Race};
pub use queue_race::{FIRST_MOST, Freezing, QueueAnswer, QueueRace, Visit};
pub use wait_race::{FIRST, WaitRace, Waited};
