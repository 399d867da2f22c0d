// Erased from crates/freeze_queue_c/src/tests/ends.rt by tools/erase: edit that file.
//! Tags that go back, and queues that end. `freeze_queue_give_tag_back` requires that queues of one number are one queue, so
//! the helpers say that this still holds of the two handles.

use super::LIMITS;
use crate::erased::c_answers::DrawnNumber;
use crate::erased::fallible::Fail;
use crate::erased::freeze_queue_c::freezer_calls::{freeze_queue_start_freeze, freeze_queue_thaw};
use crate::erased::freeze_queue_c::freezer_handle::FreezerHandle;
use crate::erased::freeze_queue_c::life::{
    Final, freeze_queue_free_freezer, freeze_queue_free_tag, freeze_queue_give_tag_back, freeze_queue_new_numbered,
    freeze_queue_next_tag, freeze_queue_number, freeze_queue_remove, freeze_queue_tag_number,
};
use crate::erased::freeze_queue_c::tag_calls::{freeze_queue_leave, freeze_queue_leave_biased, freeze_queue_try_enter};
use crate::erased::freeze_queue_c::tag_handle::TagHandle;
use alloc::format;

/// The value before a queue has ended.
const NOT_YET: Final = Final { dead: false, kills: 9, releases: 9, limits: LIMITS };

/// Returns the handles of a new queue with two slots and one tag.
fn of_one_queue(drawn: u64) -> (FreezerHandle, TagHandle) {
    let mut freezer = FreezerHandle::new();
    let mut tag = TagHandle::new();
    let number = DrawnNumber { counter: 5, drawn };
    let made = freeze_queue_new_numbered(&mut freezer, &number, &LIMITS, 2, 1);
    assert!(made == 0);
    let given = freeze_queue_next_tag(&mut freezer, &mut tag);
    assert!(given == 0);
    (freezer, tag)
}

/// # Preconditions
///
/// - `NumbersTellOn(freezer.held.freezer, tag.held.tag)`.
fn enter(_freezer: &FreezerHandle, tag: &mut TagHandle) -> u32 {
    freeze_queue_try_enter(tag, 1)
}

/// # Preconditions
///
/// - `NumbersTellOn(freezer.held.freezer, tag.held.tag)`.
fn leave(_freezer: &FreezerHandle, tag: &mut TagHandle) -> u32 {
    freeze_queue_leave(tag, 0)
}

/// # Preconditions
///
/// - `NumbersTellOn(freezer.held.freezer, tag.held.tag)`.
fn leave_biased(_freezer: &FreezerHandle, tag: &mut TagHandle) -> u32 {
    freeze_queue_leave_biased(tag, 0)
}

/// # Preconditions
///
/// - `NumbersTellOn(freezer.held.freezer, tag.held.tag)`.
fn give_back(freezer: &mut FreezerHandle, tag: &mut TagHandle) -> u32 {
    freeze_queue_give_tag_back(freezer, tag)
}

/// # Preconditions
///
/// - `NumbersTellOn(freezer.held.freezer, tag.held.tag)`.
fn freeze(freezer: &mut FreezerHandle, _tag: &TagHandle) -> u32 {
    let mut depth = 0;
    freeze_queue_start_freeze(freezer, &mut depth)
}

/// # Preconditions
///
/// - `NumbersTellOn(freezer.held.freezer, tag.held.tag)`.
fn thaw(freezer: &mut FreezerHandle, _tag: &TagHandle) -> u32 {
    let mut depth = 0;
    freeze_queue_thaw(freezer, &mut depth)
}

/// # Preconditions
///
/// - `NumbersTellOn(freezer.held.freezer, tag.held.tag)`.
fn remove(freezer: &mut FreezerHandle, _tag: &TagHandle, last: &mut Final) -> u32 {
    freeze_queue_remove(freezer, last)
}

/// Three kills: the first is thawed while the tag is in, after the second the tag is the last to leave, and the third ends the queue.
/// Each field of the final facts has its own value.
#[test]
fn a_whole_life() -> Result<(), Fail> {
    let (mut freezer, mut tag) = of_one_queue(1);
    let mut last = NOT_YET;
    assert!(enter(&freezer, &mut tag) == 0);
    assert!(freeze(&mut freezer, &tag) == 0);
    assert!(thaw(&mut freezer, &tag) == 5);
    assert!(freeze(&mut freezer, &tag) == 0);
    assert!(remove(&mut freezer, &tag, &mut last) == 20);
    assert!(last.kills == 9);
    assert!(leave(&freezer, &mut tag) == 1);
    assert!(thaw(&mut freezer, &tag) == 5);
    assert!(freeze_queue_give_tag_back(&mut freezer, &mut tag) == 0);
    assert!(freeze_queue_leave(&mut tag, 0) == 32);
    assert!(freeze_queue_remove(&mut freezer, &mut last) == 0);
    let told = format!("{last:?}");
    let wanted = "Final { dead: true, kills: 3, releases: 2, limits: PlainLimits { hardware: 16, max: 12, chunk: 10, physical: 4 } }";
    assert!(told.as_str() == wanted);
    assert!(freeze_queue_remove(&mut freezer, &mut last) == 32);
    Ok(())
}

/// Tags that nobody asked for end with the queue. A tag that was given out keeps the queue from ending.
#[test]
fn tags_that_nobody_asked_for() {
    let mut freezer = FreezerHandle::new();
    let mut tag = TagHandle::new();
    let mut last = NOT_YET;
    let number = DrawnNumber { counter: 5, drawn: 6 };
    assert!(freeze_queue_new_numbered(&mut freezer, &number, &LIMITS, 2, 3) == 0);
    assert!(freeze_queue_remove(&mut freezer, &mut last) == 0);
    assert!((last.dead, last.kills, last.releases) == (true, 1, 1));
    assert!(freeze_queue_new_numbered(&mut freezer, &number, &LIMITS, 2, 3) == 0);
    assert!(freeze_queue_next_tag(&mut freezer, &mut tag) == 0);
    assert!(freeze_queue_remove(&mut freezer, &mut last) == 20);
    assert!(freeze_queue_tag_number(&mut tag) == 6);
    assert!(freeze_queue_number(&mut freezer) == 6);
    freeze_queue_free_tag(&mut tag);
    assert!(freeze_queue_remove(&mut freezer, &mut last) == 20);
    freeze_queue_free_freezer(&mut freezer);
    assert!(freeze_queue_tag_number(&mut tag) == 0);
    assert!(freeze_queue_number(&mut freezer) == 0);
}

/// A tag that is in isn't taken back: its handle keeps it, and it leaves.
#[test]
fn a_tag_that_is_in_is_not_taken_back() {
    let (mut freezer, mut tag) = of_one_queue(1);
    assert!(enter(&freezer, &mut tag) == 0);
    assert!(freeze_queue_give_tag_back(&mut freezer, &mut tag) == 48);
    assert!(freeze_queue_leave(&mut tag, 1) == 0);
    freeze_queue_free_tag(&mut tag);
    freeze_queue_free_freezer(&mut freezer);
}

/// A biased tag goes back without its bias, and the queue can end. A tag that is in by its lane isn't taken back.
#[test]
fn a_biased_tag_goes_back() {
    let (mut freezer, mut tag) = of_one_queue(1);
    let mut last = NOT_YET;
    assert!(enter(&freezer, &mut tag) == 0);
    assert!(leave_biased(&freezer, &mut tag) == 0);
    assert!(enter(&freezer, &mut tag) == 0);
    assert!(give_back(&mut freezer, &mut tag) == 48);
    assert!(leave_biased(&freezer, &mut tag) == 0);
    assert!(remove(&mut freezer, &tag, &mut last) == 20);
    assert!(give_back(&mut freezer, &mut tag) == 0);
    assert!(freeze_queue_remove(&mut freezer, &mut last) == 0);
    assert!(last.kills == 1);
    assert!(last.releases == 1);
}

/// A tag that was biased and goes back is given again without a bias, and can be biased again.
#[test]
fn a_biased_tag_is_given_again() {
    for drawn in 1..4u64 {
        let (mut freezer, mut tag) = of_one_queue(drawn);
        let mut depth = 0;
        let biased = enter(&freezer, &mut tag) == 0 && leave_biased(&freezer, &mut tag) == 0;
        assert!(biased);
        let back = give_back(&mut freezer, &mut tag);
        assert!(back == 0, "{drawn}");
        let given = freeze_queue_next_tag(&mut freezer, &mut tag);
        assert!(given == 0, "{drawn}");
        let again = freeze_queue_try_enter(&mut tag, 1) == 0 && freeze_queue_leave_biased(&mut tag, 1) == 0;
        assert!(again, "{drawn}");
        let drained = freeze_queue_start_freeze(&mut freezer, &mut depth);
        assert!(drained == 4, "{drawn}");
        freeze_queue_free_tag(&mut tag);
        freeze_queue_free_freezer(&mut freezer);
    }
}

#[test]
fn a_tag_of_another_queue() {
    let (mut first, mut tag) = of_one_queue(1);
    let (mut second, mut other) = of_one_queue(2);
    assert!(freeze_queue_give_tag_back(&mut second, &mut tag) == 38);
    assert!(freeze_queue_try_enter(&mut tag, 0) == 0);
    assert!(freeze_queue_leave(&mut tag, 0) == 0);
    freeze_queue_free_tag(&mut tag);
    freeze_queue_free_tag(&mut other);
    freeze_queue_free_freezer(&mut first);
    freeze_queue_free_freezer(&mut second);
}

/// A tag that went back is given again, and a queue never has more tags than it was made with.
#[test]
fn tags_come_and_go() {
    let (mut freezer, mut tag) = of_one_queue(1);
    let mut other = TagHandle::new();
    assert!(freeze_queue_next_tag(&mut freezer, &mut other) == 39);
    assert!(freeze_queue_give_tag_back(&mut freezer, &mut tag) == 0);
    assert!(freeze_queue_next_tag(&mut freezer, &mut other) == 0);
    assert!(freeze_queue_next_tag(&mut freezer, &mut other) == 33);
    assert!(freeze_queue_next_tag(&mut freezer, &mut tag) == 39);
    freeze_queue_free_tag(&mut other);
    freeze_queue_free_freezer(&mut freezer);
    assert!(freeze_queue_next_tag(&mut freezer, &mut tag) == 32);
}

/// Sizes at both ends of their ranges, and an open handle.
#[test]
fn sizes() {
    let mut freezer = FreezerHandle::new();
    let mut tag = TagHandle::new();
    let number = DrawnNumber { counter: 5, drawn: 6 };
    assert!(freeze_queue_new_numbered(&mut freezer, &number, &LIMITS, 0, 2) == 35);
    assert!(freeze_queue_new_numbered(&mut freezer, &number, &LIMITS, 513, 2) == 35);
    assert!(freeze_queue_new_numbered(&mut freezer, &number, &LIMITS, 2, 0) == 35);
    assert!(freeze_queue_new_numbered(&mut freezer, &number, &LIMITS, 2, 1_024) == 35);
    assert!(freeze_queue_new_numbered(&mut freezer, &number, &LIMITS, 512, 1_023) == 0);
    assert!(freeze_queue_new_numbered(&mut freezer, &number, &LIMITS, 512, 1_023) == 33);
    for _ in 0..1_023u32 {
        assert!(freeze_queue_next_tag(&mut freezer, &mut tag) == 0);
        assert!(freeze_queue_try_enter(&mut tag, 511) == 0);
        freeze_queue_free_tag(&mut tag);
    }
    assert!(freeze_queue_next_tag(&mut freezer, &mut tag) == 39);
    freeze_queue_free_freezer(&mut freezer);
}

/// Two hundred queues in turn, each with another number, are made, give a tag, take it back and end: there is memory for
/// all.
#[test]
fn queues_in_turn() {
    for drawn in 1..201u64 {
        let (mut freezer, mut tag) = of_one_queue(drawn);
        let mut last = NOT_YET;
        let back = freeze_queue_give_tag_back(&mut freezer, &mut tag);
        assert!(back == 0, "{drawn}");
        let ended = freeze_queue_remove(&mut freezer, &mut last);
        assert!(ended == 0, "{drawn}");
    }
}

/// A frozen queue ends at any depth. Its gate was killed once.
#[test]
fn a_frozen_queue_ends() {
    let number = DrawnNumber { counter: 5, drawn: u64::MAX };
    for freezes in [1u32, 2, 3, 4, 5, 6, 7, 8, 1_000] {
        let mut freezer = FreezerHandle::new();
        let mut last = NOT_YET;
        let mut depth = 0;
        let made = freeze_queue_new_numbered(&mut freezer, &number, &LIMITS, 1, 1);
        assert!(made == 0);
        for _ in 0..freezes {
            freeze_queue_start_freeze(&mut freezer, &mut depth);
        }
        assert!(depth == freezes);
        let ended = freeze_queue_remove(&mut freezer, &mut last);
        assert!(ended == 0, "{freezes}");
        assert!((last.dead, last.kills, last.releases) == (true, 1, 1));
    }
}
