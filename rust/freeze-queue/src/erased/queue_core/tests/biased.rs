// Erased from crates/queue_core/src/tests/biased.rt by tools/erase: edit that file.
//! Sequences of calls that no clause follows from one call to the next: what becomes of a bias over two lives of a queue.

use crate::erased::percpu_gate::Put;
use crate::erased::queue_core::MOST_TAGS;
use crate::erased::queue_core::biased::{BiasedEntry, BiasedTag};
use crate::erased::queue_core::fault::FreezeFault;
use crate::erased::queue_core::freezer::Freezer;
use crate::erased::queue_core::queue::{BlockQueue, NewQueue};
use crate::erased::queue_core::tag::Tag;
use crate::erased::queue_limits::Limits;
use alloc::vec::Vec;

/// A new queue with one slot.
///
/// # Preconditions
///
/// - `tags` is from 1 to `MOST_TAGS`.
fn opened(tags: u32) -> NewQueue {
    debug_assert!(1 <= tags);
    debug_assert!(tags <= MOST_TAGS);
    let limits = Limits::start(64).expect("limits");
    BlockQueue::new(limits, 1, tags).expect("memory")
}

/// The next tag of a queue, as a biased one.
///
/// # Preconditions
///
/// - For each `t` of `tags` `t` belongs to `freezer.queue` and `t.entered` is `false`.
fn next(freezer: &Freezer, tags: &mut Vec<Tag>) -> BiasedTag {
    let tag = tags.pop().expect("a tag");
    tag.into_biased(freezer.limits())
}

/// A freeze starts, whose drain this call reports or not.
///
/// # Preconditions
///
/// - `freezer` belongs to `queue`.
fn freeze(queue: &BlockQueue, freezer: &mut Freezer, put: Put) {
    let frozen = freezer.start_freeze(queue).expect("a freeze");
    assert_eq!(frozen.put, Put::NotLast);
    assert_eq!(frozen.reclaimed, put);
    assert_eq!(freezer.poll_drained(queue), put == Put::Last);
}

/// The last freeze ends.
///
/// # Preconditions
///
/// - `freezer` belongs to `queue`.
fn thaw(queue: &BlockQueue, freezer: &mut Freezer) {
    assert_eq!(freezer.thaw(queue).expect("a thaw").depth, 0);
}

/// Sets a maximum of 8 sectors.
///
/// # Preconditions
///
/// - `freezer` belongs to `queue`.
/// - `queue.hardware` is 64.
fn set(queue: &BlockQueue, freezer: &mut Freezer, wanted: Result<(), FreezeFault>) {
    let limits = Limits::new(64, 8, 0).expect("limits");
    assert_eq!(freezer.set(queue, limits), wanted);
}

/// A request enters on slot 0, under limits with this maximum, and leaves. If `keep` is true, its tag is parked.
///
/// # Preconditions
///
/// - `queue_of(tag)` is `queue`.
/// - `queue.slots()` is 1.
/// - `in_now(tag)` is `false`.
fn go(queue: &BlockQueue, tag: &mut BiasedTag, keep: bool, most: u32) {
    debug_assert!(queue.slots() == 1);
    assert_eq!(tag.try_enter(queue, 0), BiasedEntry::Entered);
    assert_eq!(tag.limits().max(), most);
    let _put = tag.leave(queue, 0, keep);
    assert_eq!(tag.is_biased(), keep);
}

/// A request is refused, and the bias of its tag is over.
///
/// # Preconditions
///
/// - `queue_of(tag)` is `queue`.
/// - `queue.slots()` is 1.
/// - `in_now(tag)` is `false`.
fn is_refused(queue: &BlockQueue, tag: &mut BiasedTag) {
    debug_assert!(queue.slots() == 1);
    assert_eq!(tag.try_enter(queue, 0), BiasedEntry::Refused(Put::NotLast));
    assert!(!tag.is_biased());
}

/// A request enters, and stays in.
///
/// # Preconditions
///
/// - `queue_of(tag)` is `queue`.
/// - `queue.slots()` is 1.
/// - `in_now(tag)` is `false`.
fn enter(queue: &BlockQueue, tag: &mut BiasedTag) {
    debug_assert!(queue.slots() == 1);
    assert_eq!(tag.try_enter(queue, 0), BiasedEntry::Entered);
}

/// The last request of a freeze leaves, and its tag isn't parked.
///
/// # Preconditions
///
/// - `queue_of(tag)` is `queue`.
/// - `queue.slots()` is 1.
/// - `in_now(tag)` is `true`.
fn leave_last(queue: &BlockQueue, tag: &mut BiasedTag) {
    debug_assert!(queue.slots() == 1);
    assert_eq!(tag.leave(queue, 0, true), Put::Last);
    assert!(!tag.is_biased());
}

/// A tag is parked in each life of a queue, and reclaimed by each freeze. The next request has the limits of its own life.
#[test]
fn two_lives() {
    let (queue, mut freezer, mut tags) = opened(1);
    let mut tag = next(&freezer, &mut tags);
    go(&queue, &mut tag, true, 64);
    go(&queue, &mut tag, true, 64);
    freeze(&queue, &mut freezer, Put::Last);
    is_refused(&queue, &mut tag);
    thaw(&queue, &mut freezer);
    go(&queue, &mut tag, true, 64);
    freeze(&queue, &mut freezer, Put::Last);
    thaw(&queue, &mut freezer);
    go(&queue, &mut tag, false, 64);
}

/// A freeze takes the bias of an idle tag away, and waits for the request that is in by its lane.
#[test]
fn one_reclaimed_and_one_watched() {
    let (queue, mut freezer, mut tags) = opened(2);
    let mut idle = next(&freezer, &mut tags);
    let mut busy = next(&freezer, &mut tags);
    go(&queue, &mut idle, true, 64);
    go(&queue, &mut busy, true, 64);
    enter(&queue, &mut busy);
    freeze(&queue, &mut freezer, Put::NotLast);
    set(&queue, &mut freezer, Err(FreezeFault::NotDrained));
    is_refused(&queue, &mut idle);
    leave_last(&queue, &mut busy);
    set(&queue, &mut freezer, Ok(()));
    thaw(&queue, &mut freezer);
    go(&queue, &mut idle, true, 8);
    go(&queue, &mut busy, false, 8);
}

/// A bias that ends drops its reference to the gate, once.
#[test]
fn a_bias_ends() {
    let (queue, mut freezer, mut tags) = opened(1);
    let mut tag = next(&freezer, &mut tags);
    go(&queue, &mut tag, true, 64);
    assert_eq!(tag.end_bias(&queue, 0), Some(Put::NotLast));
    assert_eq!(tag.end_bias(&queue, 0), Some(Put::NotLast));
    assert!(!tag.is_biased());
    assert_eq!(freezer.start_freeze(&queue).expect("a freeze").put, Put::Last);
    assert!(tag.into_tag().is_ok());
}
