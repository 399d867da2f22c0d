// Erased from crates/percpu_gate/src/lib.rt by tools/erase: edit that file.
//! The running gate: references counted by many threads, a kill, and a revival.
//!
//! A driver's device can be removed while requests run on it. So each request counts itself in before it touches
//! the device, and out afterwards: `try_get_live` gives it a reference, or refuses since the device is going, and
//! `put` drops it. Whoever removes the device kills the gate. Once a request's pass has seen the odd front of the
//! kill it is given no reference of that life any more; those that run are left to end, and the last put of all is
//! answered `Last`: nobody is at the device any more, and whoever was told so frees what it has. Nothing of this
//! waits, and a request that is let in and isn't the last pays two atomic additions.
//! A device that comes back, or whose settings change while nothing runs, is the same gate revived: its settings
//! are the guarded words, which are stored at zero and hold still for as long as anybody holds a reference.
//!
//! A [`Gate`] is what Linux's `percpu_ref` is (lib/percpu-refcount.c). Threads share it by reference. Each counts
//! with a [`Pass`] of its own: `try_get` and `try_get_live` take a reference where the gate still gives one, `get`
//! takes more of what is held, `put` drops. The one [`Control`] kills the gate, stores its guarded words once
//! everything was put, and brings it back; `retire` and [`Gate::exit`] end it, and tell that no release was lost.
//!
//! Every call is a few atomic steps, in a fixed order: no lock, no loop, no step taken again, no allocation. Each
//! step is one event of the machine in `percpu_core`, and the rule of the words is that machine's laws, so
//! they hold between any two steps, whichever threads make the calls. A call's contract speaks of what its
//! seat knows: `view.standing.held` of a pass is what it holds, `view.standing.phase` of the control where it
//! stands. docs/GATE.md tells the gate's life, the crate `trials_gate` has rows of calls
//! and their answers, `uses` how a caller reasons.
//!
//! A gate that counts on slots has one for each processor, or for each thread: a count that finds its slot open costs
//! a look at it and one exchange, on a line that no other thread touches where each keeps to a slot of its own. A kill closes the slots and collects their
//! sum, and a revival opens them again; `switch_to_atomic` and `switch_to_slots` do so while the gate lives on.

mod control;
mod control_fault;
mod control_seat;
mod exit;
mod gate;
mod pass;
mod pass_seat;
mod revived;
mod rule;
mod table;
mod tried;

pub use crate::erased::percpu_core::{
    HELD_LIMIT, KILL_LIMIT, Memory, PASS_LIMIT, Phase, SLOT_LIMIT, Start, WORD_LIMIT,
};
pub use crate::erased::percpu_words::Mode;
pub use control::Control;
pub use control_fault::ControlFault;
pub use exit::{ExitFault, ExitWhy, Final};
pub use gate::{Gate, NewGate};
pub use pass::Pass;
pub use revived::Revived;
pub use tried::{Put, Tried};
