// Erased from crates/freeze_queue_c/src/tests.rt by tools/erase: edit that file.
//! A life through the exports, and each misuse. c/tests tests what the library does with C's threads, sanitizers and a
//! failing `malloc`.

mod biased;
mod ends;
mod freed;
mod limits;

use crate::erased::c_answers::DrawnNumber;
use crate::erased::freeze_queue_c::freezer_calls::{
    freeze_queue_depth, freeze_queue_mode, freeze_queue_poll_drained, freeze_queue_set, freeze_queue_start_freeze,
    freeze_queue_thaw,
};
use crate::erased::freeze_queue_c::freezer_handle::FreezerHandle;
use crate::erased::freeze_queue_c::life::{
    freeze_queue_free_freezer, freeze_queue_free_tag, freeze_queue_new_numbered, freeze_queue_next_tag,
};
use crate::erased::freeze_queue_c::open_freezer::OpenFreezer;
use crate::erased::freeze_queue_c::open_tag::OpenTag;
use crate::erased::freeze_queue_c::plain_limits::PlainLimits;
use crate::erased::freeze_queue_c::tag_calls::{
    freeze_queue_leave, freeze_queue_limits_of, freeze_queue_look_in, freeze_queue_try_enter,
};
use crate::erased::freeze_queue_c::tag_handle::TagHandle;

/// The number of the tests' queue.
const NUMBER: DrawnNumber = DrawnNumber { counter: 1, drawn: 1 };

/// Hardware that takes 16 sectors, a maximum of 12, chunks of 10 and physical blocks of 4.
const LIMITS: PlainLimits = PlainLimits { hardware: 16, max: 12, chunk: 10, physical: 4 };

/// The box of a handle may cross threads.
fn crosses<T: Send>() {}

/// Returns a freezer and a tag of a new queue with two slots and two tags.
fn opened() -> (FreezerHandle, TagHandle) {
    crosses::<OpenTag>();
    crosses::<OpenFreezer>();
    let mut freezer = FreezerHandle::new();
    let mut tag = TagHandle::new();
    freeze_queue_new_numbered(&mut freezer, &NUMBER, &LIMITS, 2, 2);
    freeze_queue_next_tag(&mut freezer, &mut tag);
    (freezer, tag)
}

/// Frees both handles.
fn close(freezer: &mut FreezerHandle, tag: &mut TagHandle) {
    freeze_queue_free_tag(tag);
    freeze_queue_free_freezer(freezer);
}

/// A tag enters; during a freeze a second tag is refused, looks in, leaves as the last, and enters again after the thaw.
#[test]
fn a_life() {
    let (mut freezer, mut tag) = opened();
    let mut other = TagHandle::new();
    let mut depth = 9;
    assert!(freeze_queue_next_tag(&mut freezer, &mut other) == 0);
    assert!(freeze_queue_try_enter(&mut tag, 1) == 0);
    assert!(!freeze_queue_poll_drained(&mut freezer));
    assert!(freeze_queue_start_freeze(&mut freezer, &mut depth) == 0);
    assert!(depth == 1);
    assert!(freeze_queue_try_enter(&mut other, 0) == 2);
    assert!(freeze_queue_look_in(&mut other, 0) == 0);
    assert!(freeze_queue_leave(&mut tag, 0) == 0);
    assert!(!freeze_queue_poll_drained(&mut freezer));
    assert!(freeze_queue_leave(&mut other, 0) == 1);
    assert!(freeze_queue_poll_drained(&mut freezer));
    assert!(freeze_queue_look_in(&mut other, 1) == 2);
    assert!(freeze_queue_thaw(&mut freezer, &mut depth) == 5);
    assert!(depth == 0);
    assert!(freeze_queue_try_enter(&mut other, 1) == 0);
    assert!(freeze_queue_leave(&mut other, 1) == 0);
    assert!(freeze_queue_leave(&mut other, 1) == 49);
    freeze_queue_free_tag(&mut other);
    close(&mut freezer, &mut tag);
}

/// A freeze of an empty queue returns that it is drained, and so does a nested freeze. The last thaw returns that it is live.
#[test]
fn nested_freezes() {
    let (mut freezer, mut tag) = opened();
    let mut depth = 9;
    assert!(freeze_queue_depth(&mut freezer, &mut depth) == 0);
    assert!(depth == 0);
    assert!(freeze_queue_thaw(&mut freezer, &mut depth) == 18);
    assert!(freeze_queue_start_freeze(&mut freezer, &mut depth) == 4);
    assert!(depth == 1);
    assert!(freeze_queue_start_freeze(&mut freezer, &mut depth) == 4);
    assert!(depth == 2);
    assert!(freeze_queue_depth(&mut freezer, &mut depth) == 0);
    assert!(depth == 2);
    assert!(freeze_queue_thaw(&mut freezer, &mut depth) == 0);
    assert!(depth == 1);
    assert!(freeze_queue_poll_drained(&mut freezer));
    assert!(freeze_queue_thaw(&mut freezer, &mut depth) == 5);
    assert!(!freeze_queue_poll_drained(&mut freezer));
    close(&mut freezer, &mut tag);
}

/// If the last tag to leave has drained the queue, the next freeze returns this without a look in between.
#[test]
fn a_nested_freeze_looks() {
    let (mut freezer, mut tag) = opened();
    let mut depth = 9;
    assert!(freeze_queue_try_enter(&mut tag, 0) == 0);
    assert!(freeze_queue_start_freeze(&mut freezer, &mut depth) == 0);
    assert!(freeze_queue_start_freeze(&mut freezer, &mut depth) == 0);
    assert!(freeze_queue_leave(&mut tag, 1) == 1);
    assert!(freeze_queue_start_freeze(&mut freezer, &mut depth) == 4);
    assert!(depth == 3);
    close(&mut freezer, &mut tag);
}

/// Freeze number 1,001 is refused, and writes nothing.
#[test]
fn the_greatest_depth() {
    let (mut freezer, mut tag) = opened();
    let mut depth = 9;
    for k in 1..1_001u32 {
        assert!(freeze_queue_start_freeze(&mut freezer, &mut depth) == 4);
        assert!(depth == k);
    }
    depth = 7;
    assert!(freeze_queue_start_freeze(&mut freezer, &mut depth) == 17);
    assert!(depth == 7);
    close(&mut freezer, &mut tag);
}

#[test]
fn misuse_of_a_tag() {
    let (mut freezer, mut tag) = opened();
    let mut told = LIMITS;
    assert!(freeze_queue_try_enter(&mut tag, 2) == 34);
    assert!(freeze_queue_look_in(&mut tag, 2) == 34);
    assert!(freeze_queue_leave(&mut tag, 2) == 34);
    assert!(freeze_queue_leave(&mut tag, 1) == 49);
    assert!(freeze_queue_limits_of(&mut tag, &mut told) == 49);
    assert!(freeze_queue_try_enter(&mut tag, 1) == 0);
    assert!(freeze_queue_try_enter(&mut tag, 2) == 34);
    assert!(freeze_queue_try_enter(&mut tag, 0) == 48);
    assert!(freeze_queue_look_in(&mut tag, 0) == 48);
    assert!(freeze_queue_leave(&mut tag, 0) == 0);
    freeze_queue_free_tag(&mut tag);
    assert!(freeze_queue_try_enter(&mut tag, 0) == 32);
    assert!(freeze_queue_look_in(&mut tag, 0) == 32);
    assert!(freeze_queue_leave(&mut tag, 0) == 32);
    assert!(freeze_queue_limits_of(&mut tag, &mut told) == 32);
    close(&mut freezer, &mut tag);
}

#[test]
fn misuse_of_a_freezer() {
    let (mut freezer, mut tag) = opened();
    let mut depth = 9;
    assert!(freeze_queue_mode(&mut freezer, 2) == 50);
    freeze_queue_free_freezer(&mut freezer);
    assert!(freeze_queue_start_freeze(&mut freezer, &mut depth) == 32);
    assert!(freeze_queue_thaw(&mut freezer, &mut depth) == 32);
    assert!(freeze_queue_depth(&mut freezer, &mut depth) == 32);
    assert!(depth == 9);
    assert!(!freeze_queue_poll_drained(&mut freezer));
    assert!(freeze_queue_set(&mut freezer, &LIMITS) == 32);
    assert!(freeze_queue_mode(&mut freezer, 0) == 32);
    close(&mut freezer, &mut tag);
}

/// Both modes count, also if the mode is changed while a tag is in or the queue is frozen.
#[test]
fn both_modes() {
    let (mut freezer, mut tag) = opened();
    let mut depth = 9;
    assert!(freeze_queue_mode(&mut freezer, 1) == 0);
    assert!(freeze_queue_try_enter(&mut tag, 1) == 0);
    assert!(freeze_queue_mode(&mut freezer, 0) == 0);
    assert!(freeze_queue_start_freeze(&mut freezer, &mut depth) == 0);
    assert!(freeze_queue_mode(&mut freezer, 1) == 0);
    assert!(freeze_queue_leave(&mut tag, 0) == 1);
    assert!(freeze_queue_thaw(&mut freezer, &mut depth) == 5);
    assert!(freeze_queue_try_enter(&mut tag, 0) == 0);
    assert!(freeze_queue_leave(&mut tag, 1) == 0);
    close(&mut freezer, &mut tag);
}

/// A tag that is freed while it is in never leaves: the queue never drains.
#[test]
fn a_freed_tag_stays_in() {
    let (mut freezer, mut tag) = opened();
    let mut depth = 9;
    assert!(freeze_queue_try_enter(&mut tag, 0) == 0);
    freeze_queue_free_tag(&mut tag);
    assert!(freeze_queue_start_freeze(&mut freezer, &mut depth) == 0);
    assert!(!freeze_queue_poll_drained(&mut freezer));
    freeze_queue_free_freezer(&mut freezer);
}

/// The tags of a freed freezer go on entering: nobody has frozen their queue.
#[test]
fn a_freed_freezer_leaves_its_queue_live() {
    let (mut freezer, mut tag) = opened();
    freeze_queue_free_freezer(&mut freezer);
    assert!(freeze_queue_try_enter(&mut tag, 0) == 0);
    assert!(freeze_queue_leave(&mut tag, 1) == 0);
    freeze_queue_free_tag(&mut tag);
}
