// Erased from crates/freeze_queue_c/src/tests/biased.rt by tools/erase: edit that file.
//! Biased tags: their requests enter by their lanes.

use super::{LIMITS, close, opened};
use crate::erased::freeze_queue_c::freezer_calls::{
    freeze_queue_poll_drained, freeze_queue_set, freeze_queue_start_freeze, freeze_queue_thaw,
};
use crate::erased::freeze_queue_c::tag_calls::{
    freeze_queue_leave, freeze_queue_leave_biased, freeze_queue_limits_of, freeze_queue_look_in, freeze_queue_try_enter,
};
use crate::erased::freeze_queue_c::tag_handle::TagHandle;

/// Enters and leaves, so that the tag is biased. Returns whether both calls succeed.
fn biases(tag: &mut TagHandle) -> bool {
    freeze_queue_try_enter(tag, 0) == 0 && freeze_queue_leave_biased(tag, 0) == 0
}

/// An idle biased tag doesn't delay a freeze. Its next request is refused, and enters after the thaw under the new limits.
#[test]
fn an_idle_bias_holds_up_no_freeze() {
    let (mut freezer, mut tag) = opened();
    let mut depth = 9;
    let mut told = LIMITS;
    let mut next = LIMITS;
    next.max = 5;
    assert!(biases(&mut tag));
    assert!(freeze_queue_start_freeze(&mut freezer, &mut depth) == 4);
    assert!(freeze_queue_poll_drained(&mut freezer));
    assert!(freeze_queue_try_enter(&mut tag, 1) == 2);
    assert!(freeze_queue_set(&mut freezer, &next) == 0);
    assert!(freeze_queue_thaw(&mut freezer, &mut depth) == 5);
    assert!(freeze_queue_try_enter(&mut tag, 1) == 0);
    assert!(freeze_queue_limits_of(&mut tag, &mut told) == 0);
    assert!(told.max == 5);
    assert!(freeze_queue_leave(&mut tag, 1) == 0);
    close(&mut freezer, &mut tag);
}

/// A freeze waits for a request that has entered by its lane, whose put is the last.
#[test]
fn a_biased_request_holds_up_a_freeze() {
    let (mut freezer, mut tag) = opened();
    let mut depth = 9;
    let mut told = LIMITS;
    assert!(biases(&mut tag));
    assert!(freeze_queue_try_enter(&mut tag, 1) == 0);
    assert!(freeze_queue_try_enter(&mut tag, 1) == 48);
    assert!(freeze_queue_start_freeze(&mut freezer, &mut depth) == 0);
    assert!(!freeze_queue_poll_drained(&mut freezer));
    assert!(freeze_queue_set(&mut freezer, &LIMITS) == 19);
    assert!(freeze_queue_limits_of(&mut tag, &mut told) == 0);
    assert!(told.max == 12);
    assert!(freeze_queue_leave_biased(&mut tag, 1) == 1);
    assert!(freeze_queue_leave_biased(&mut tag, 1) == 49);
    assert!(freeze_queue_poll_drained(&mut freezer));
    close(&mut freezer, &mut tag);
}

/// A look by a biased tag ends its bias, and keeps the queue from draining.
#[test]
fn a_look_ends_a_bias() {
    let (mut freezer, mut tag) = opened();
    let mut depth = 9;
    assert!(biases(&mut tag));
    assert!(freeze_queue_look_in(&mut tag, 1) == 0);
    assert!(freeze_queue_start_freeze(&mut freezer, &mut depth) == 0);
    assert!(freeze_queue_leave(&mut tag, 1) == 1);
    close(&mut freezer, &mut tag);
}
