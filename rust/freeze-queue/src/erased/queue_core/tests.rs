// Erased from crates/queue_core/src/tests.rt by tools/erase: edit that file.
//! The slot on which a tag counts, which no caller of a queue can see. A kill by hand shows it: it closes the slots one
//! by one, and returns each slot's delta.

mod biased;

use crate::erased::fallible::Fail;
use crate::erased::percpu_gate::{Control, Gate, Phase, Put};
use crate::erased::queue_core::limit_words::LIMIT_WORDS;
use crate::erased::queue_core::queue::BlockQueue;
use crate::erased::queue_core::tag::{Entry, Stay, Tag};
use crate::erased::queue_limits::Limits;

/// Enters on slot 1, looks on slot 3, and leaves on slot 2 after each.
///
/// # Preconditions
///
/// - `tag` belongs to `queue`.
/// - `queue.slots()` is 4.
/// - `tag.entered()` is `false`.
fn count(queue: &BlockQueue, tag: &mut Tag) {
    debug_assert!(queue.slots() == 4);
    debug_assert!(!tag.entered());
    assert_eq!(queue.try_enter(tag, 1), Entry::Entered);
    let _put = queue.leave(tag, 2);
    assert_eq!(queue.try_enter_frozen(tag, 3), Entry::Entered);
    let _put = queue.leave(tag, 2);
}

/// Enters on slot 1, and stays on slot 3 after the gate is marked dead: it leaves there.
///
/// # Preconditions
///
/// - `tag` belongs to `queue`.
/// - `control` belongs to `queue.gate`.
/// - `queue.slots()` is 4.
/// - `tag.entered()` is `false`.
fn stay_in_dead(queue: &BlockQueue, control: &mut Control<LIMIT_WORDS>, tag: &mut Tag) {
    debug_assert!(queue.slots() == 4);
    debug_assert!(!tag.entered());
    assert_eq!(queue.try_enter(tag, 1), Entry::Entered);
    assert_eq!(control.mark_dead(&queue.gate), Ok(4));
    assert_eq!(queue.stay(tag, 3), Stay::Left(Put::NotLast));
}

/// Returns the delta of the next slot that a kill closes, if there is one.
///
/// # Preconditions
///
/// - `control` belongs to `gate`.
fn next_delta(control: &mut Control<LIMIT_WORDS>, gate: &Gate<LIMIT_WORDS>) -> Option<i64> {
    match control.phase() {
        Phase::Closing(slot) if slot < gate.slots() => Some(control.close_next(gate)),
        _ => None,
    }
}

/// Entering and looking count up on their slot, and leaving and staying count down on theirs.
#[test]
fn each_count_is_on_its_slot() -> Result<(), Fail> {
    let (queue, freezer, mut tags) = BlockQueue::new(Limits::start(8)?, 4, 1)?;
    let mut tag = tags.pop().ok_or("a tag")?;
    count(&queue, &mut tag);
    let mut control = freezer.into_control();
    stay_in_dead(&queue, &mut control, &mut tag);
    assert_eq!(next_delta(&mut control, &queue.gate), Some(0));
    assert_eq!(next_delta(&mut control, &queue.gate), Some(2));
    assert_eq!(next_delta(&mut control, &queue.gate), Some(-2));
    assert_eq!(next_delta(&mut control, &queue.gate), Some(0));
    Ok(())
}
