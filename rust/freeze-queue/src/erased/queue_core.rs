// Erased from crates/queue_core/src/lib.rt by tools/erase: edit that file.
//! A request queue that can be frozen, without waiting: the caller decides how threads sleep and are woken.
//!
//! A [`BlockQueue`] is to its users what a `request_queue` is to a driver in Linux (block/blk-core.c). Nothing here
//! sleeps, yields, locks, starts a thread or, after [`BlockQueue::new`], allocates. Each call is a few atomic steps,
//! and its result says which waiters the caller has to wake. The life of a queue:
//! - **Live.** A submitter takes a [`Tag`] and enters with it, reads the limits under it, and hands the tag on with its
//!   request. The thread that ends the request leaves with the tag. `try_enter` and `leave` are one counting call of the gate
//!   each, without a lock. If each submitter uses a slot of its own, no word is written by all of them (in the other
//!   [`Mode`] they share one count). A busy thread needn't leave between two requests: `stay` looks once whether a
//!   freeze has started, and leaves only then.
//! - **Frozen.** The [`Freezer`] counts freezes. The first freeze kills the gate: no tag enters from then on, except by
//!   `try_enter_frozen`, to look at what is in flight. When the last tag leaves, its call returns [`Put::Last`]: the
//!   gate is at zero, and the queue is drained.
//! - **Set.** While the queue is drained its limits can be set. They are in the gate's guarded words, so they don't
//!   change while a tag is entered.
//! - **Thawed.** The last thaw revives the gate, drained or not.
//!
//! A [`BiasedTag`] enters and leaves by a store and a load, by its lane (the crate `bias_lanes`), while its pass stays counted at the gate:
//! - **Plain.** It enters and leaves the gate, and reads its limits as it enters.
//! - **Biased.** [`BiasedTag::park`] parks its pass in the lane. Its next requests are in by the lane, under the limits that it read. While
//!   one is in, the parked pass has its reference, so the limits don't change, and the gate can't be at zero (`biased_holds_off`).
//! - **Frozen.** The first freeze ends all biases, and drops the reference of each parked pass whose owner is idle. The owner of a busy lane
//!   finds its bias over as it leaves, takes its pass back, and leaves by the gate. An owner that comes later tries to enter by the gate.
//! - **Thawed.** Each bias is over. A tag can be biased again when its next request leaves.
//!
//! While the freezer has a pass in hand, its owner can't take it back: the call returns [`BiasedEntry::InHand`]. A freezer under a lock has
//! no pass in hand when the lock is released, so the owner tries again under that lock.
//!
//! Which waiters to wake: if `leave`, a refused try or `start_freeze` returns [`Put::Last`], wake the freezer, which
//! then finds the queue drained. If `thaw` returns that the queue is live, wake the threads that wait to enter. A
//! thread that announces that it will sleep has to look once more before it does. The crate `freeze_queue` has the same
//! calls, and others that wait by the kit's means.
//!
//! `specs/Queue.antt`, which takes five minutes to read, says what a tag and a freezer know and what each call changes.
//! `limits_hold_still` and `drained_is_empty` prove at the gate that limits don't change under an entered tag and that a
//! drained queue is empty. `in_force_are_set` and `tags_read_what_is_set` prove that a tag reads the freezer's limits if
//! the freezer's state is its present one at the read, a premise that no call establishes. `entered_holds_off` and
//! `drained_refuses` prove that a queue doesn't drain while a tag is in, and that a drained queue refuses a look.

mod at_gate;
mod biased;
mod fault;
mod freezer;
mod limit_words;
mod parked;
mod queue;
mod remove;
mod tag;
#[cfg(test)]
mod tests;

pub use crate::erased::percpu_gate::{Final, Memory, Mode, Put};
pub use crate::erased::queue_limits::{LimitFault, Limits};
pub use biased::{BiasedEntry, BiasedTag};
pub use fault::FreezeFault;
pub use freezer::{Freezer, Frozen, MOST_DEPTH, Thawed};
pub use limit_words::LIMIT_WORDS;
pub use parked::ParkedPass;
pub use queue::{BlockQueue, MOST_TAGS, NewQueue};
pub use remove::RemoveFault;
pub use tag::{Entry, Stay, Tag};
