// Erased from crates/queue_core/src/at_gate.rt by tools/erase: edit that file.
//! What a biased tag does at the gate with its pass.

use crate::erased::bias_lanes::{Lane, Stage};
use crate::erased::percpu_gate::{Gate, Pass, Put, Tried};
use crate::erased::queue_core::limit_words::{LIMIT_WORDS, load_words};
use crate::erased::queue_core::parked::ParkedPass;
use crate::erased::queue_core::queue::BlockQueue;
use crate::erased::queue_limits::Limits;

/// Takes the pass of a tag into its hand, if it is parked. Returns false if the freezer has it in hand.
///
/// # Preconditions
///
/// - `lane.lanes` is `queue.lanes`.
/// - `is_some(hand)` is `is_unbiased(lane.view.stage)`.
/// - If `hand` is `Some(p)`, then `p` belongs to `lane.lanes.key` and `p.view.standing.held` is at most 1.
/// - `not_in_lane(lane.view.stage)` is `true`.
pub(crate) fn take_out(lane: &mut Lane<ParkedPass>, hand: &mut Option<Pass<LIMIT_WORDS>>, queue: &BlockQueue) -> bool {
    if lane.stage() == Stage::Unbiased {
        return true;
    }
    let Some(parked) = lane.take_back(&queue.lanes) else {
        return false;
    };
    if parked.pass.held() == 1 {
        queue.count_back();
    }
    *hand = Some(parked.pass);
    true
}

/// Enters with a pass, or stays if it has its reference already. Returns the put if the queue is frozen: the reference is dropped.
///
/// # Preconditions
///
/// - `pass` belongs to `gate`.
/// - `slot` is less than `gate.slots()`.
/// - `pass.held()` is at most 1.
pub(crate) fn come_in(pass: &mut Pass<LIMIT_WORDS>, gate: &Gate<LIMIT_WORDS>, slot: u32) -> Option<Put> {
    debug_assert!(slot < gate.slots());
    debug_assert!(pass.held() <= 1);
    if pass.held() == 1 {
        if pass.is_dying(gate) {
            return Some(pass.put(gate, slot, 1));
        }
        return None;
    }
    match pass.try_get_live(gate, slot) {
        Tried::Given => None,
        Tried::Refused(put) => Some(put),
    }
}

/// Enters with a pass if the gate isn't at zero, or takes no step if it has its reference already. Returns the put at zero.
///
/// # Preconditions
///
/// - `pass` belongs to `gate`.
/// - `slot` is less than `gate.slots()`.
/// - `pass.held()` is at most 1.
pub(crate) fn look_in(pass: &mut Pass<LIMIT_WORDS>, gate: &Gate<LIMIT_WORDS>, slot: u32) -> Option<Put> {
    debug_assert!(slot < gate.slots());
    debug_assert!(pass.held() <= 1);
    if pass.held() == 1 {
        return None;
    }
    match pass.try_get(gate, slot) {
        Tried::Given => None,
        Tried::Refused(put) => Some(put),
    }
}

/// Drops the reference of a pass, if it has one.
///
/// # Preconditions
///
/// - `pass` belongs to `gate`.
/// - `slot` is less than `gate.slots()`.
/// - `pass.held()` is at most 1.
pub(crate) fn put_once(pass: &mut Pass<LIMIT_WORDS>, gate: &Gate<LIMIT_WORDS>, slot: u32) -> Put {
    debug_assert!(slot < gate.slots());
    debug_assert!(pass.held() <= 1);
    if pass.held() == 1 {
        return pass.put(gate, slot, 1);
    }
    Put::NotLast
}

/// Returns the limits in force, for a pass that has its reference.
///
/// # Preconditions
///
/// - `pass` belongs to `queue.gate`.
/// - `pass.held()` is 1.
pub(crate) fn ask(pass: &mut Pass<LIMIT_WORDS>, queue: &BlockQueue) -> Limits {
    debug_assert!(pass.held() == 1);
    Limits::from_words(queue.hardware, load_words(pass, &queue.gate))
}
