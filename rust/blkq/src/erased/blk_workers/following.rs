// Erased from crates/blk_workers/src/following.rt by tools/erase: edit that file.
//! How the queue's freezer follows a script.

use crate::erased::freeze_queue::{BlockQueue, Freezer, Mode};
use crate::erased::queue_limits::Limits;
use crate::erased::script_meaning::{Mode as ScriptMode, QueueState};

/// Freezes the queue and waits until it is drained. Does nothing if the queue is frozen already, because it is drained then.
///
/// A gate can be killed 2^40 times at most (`percpu_core`, `KILL_LIMIT`).
///
/// # Preconditions
///
/// - `freezer` belongs to `queue`.
/// - If `freezer.depth()` is at least 1, then `freezer.drained` is `true`.
/// - `freezer.kills` is less than `2^40`.
pub(crate) fn freeze(freezer: &mut Freezer, queue: &BlockQueue) {
    if freezer.depth() > 0 {
        return;
    }
    let frozen = freezer.freeze(queue);
    debug_assert!(frozen.is_ok());
}

// Sets the limits of a frozen, drained queue if they differ. `set` would look at the gate and store each limit anyway.
//
// # Preconditions
//
// - `freezer` belongs to `queue`.
// - `limits.hw()` is `queue.hardware`.
// - `freezer.depth()` is at least 1.
// - `freezer.drained` is `true`.
fn set_limits(freezer: &mut Freezer, queue: &BlockQueue, limits: Limits) {
    debug_assert!(0 < freezer.depth());
    if freezer.limits() != limits {
        let set = freezer.set(queue, limits);
        debug_assert!(set.is_ok());
    }
}

// Brings the depth of a frozen queue one step closer to `depth`. One step is enough: a drain adds one if the depth is 0, and a line
// changes the script's depth by one at most. Each line that isn't an accepted request is followed, and so is each drain before an
// ordered request. 1,000 is the script's `DEPTH_LIMIT` and the freezer's `MOST_DEPTH`.
//
// # Preconditions
//
// - `freezer` belongs to `queue`.
// - `freezer.depth()` is at least 1.
// - `depth` is at most 1000.
fn step_to(freezer: &mut Freezer, queue: &BlockQueue, depth: u32) {
    debug_assert!(0 < freezer.depth());
    debug_assert!(depth <= 1000);
    let now = freezer.depth();
    if now < depth {
        let frozen = freezer.start_freeze(queue);
        debug_assert!(frozen.is_ok());
    } else if depth < now {
        let thawed = freezer.thaw(queue);
        debug_assert!(thawed.is_ok());
    }
}

// Returns the queue's mode for a script's mode.
fn queue_mode(mode: ScriptMode) -> Mode {
    match mode {
        ScriptMode::Atomic => Mode::Atomic,
        ScriptMode::Slots => Mode::Slots,
    }
}

/// Brings the queue into step with the script's queue: sets its mode and, if it is frozen, its limits and its depth. So each freeze
/// and thaw of the script is one of the queue. A queue that the script removed stays frozen.
///
/// # Preconditions
///
/// - `freezer` belongs to `queue`.
/// - If `freezer.depth()` is at least 1, then `freezer.drained` is `true`.
/// - `state.limits.hardware` is `queue.hardware`.
/// - `IsNear(state, freezer)`: one freeze or thaw at most brings the freezer into step with a script's queue: a
///   live queue is in step except for its mode.
pub(crate) fn follow(freezer: &mut Freezer, queue: &BlockQueue, state: &QueueState) {
    freezer.mode(queue, queue_mode(state.mode()));
    // A live queue already has the script's limits and its depth, 0. A line that changes either drains first or comes under a
    // freeze, so the queue is frozen by then.
    if freezer.depth() == 0 {
        return;
    }
    set_limits(freezer, queue, state.limits());
    let goal = if state.is_removed() && state.depth() == 0 { 1 } else { state.depth() };
    step_to(freezer, queue, goal);
}
