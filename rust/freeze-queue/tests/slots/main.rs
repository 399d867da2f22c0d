//! Tests on which slot a biased tag counts when its bias begins and ends, in each life of a queue and for each of its tags, and that a
//! biased request takes no step at the gate. The erased files are compiled again here over a gate that logs.

extern crate alloc;

#[allow(dead_code, unused_imports, missing_docs, missing_debug_implementations, clippy::all, clippy::pedantic)]
mod erased;
#[allow(dead_code, missing_docs, missing_debug_implementations, clippy::pedantic)]
pub mod gate;

use crate::erased::queue_core::{BiasedEntry, BiasedTag, BlockQueue, Freezer, Limits, Put};
use gate::Log;
use gate::Step::{Dropped, Killed, Looked, Refused, Revived, Switched, Taken};
use std::sync::atomic::{AtomicBool, Ordering::SeqCst};
use std::thread;

const TAGS: u32 = 1_023;

fn queue(slots: u32, tags: u32) -> (BlockQueue, Freezer, Vec<BiasedTag>) {
    let limits = Limits::start(8).unwrap();
    let (queue, freezer, made) = BlockQueue::new(limits, slots, tags).unwrap_or_else(|_| panic!("memory"));
    (queue, freezer, made.into_iter().map(|tag| tag.into_biased(limits)).collect())
}

/// Enters on this slot, and parks the tag on the other.
fn park(log: &Log, queue: &BlockQueue, tag: &mut BiasedTag, slot: u32, other: u32) {
    assert_eq!(tag.try_enter(queue, slot), BiasedEntry::Entered);
    assert_eq!(log.steps(), [Taken(slot)]);
    assert_eq!(tag.leave(queue, other, true), Put::NotLast);
    assert_eq!((tag.is_biased(), log.steps()), (true, vec![]));
}

/// Enters and leaves by the lane, which is no step of the gate.
fn go_by_lane(log: &Log, queue: &BlockQueue, tag: &mut BiasedTag) {
    assert_eq!(tag.try_enter(queue, 0), BiasedEntry::Entered);
    assert_eq!(tag.leave(queue, 0, false), Put::NotLast);
    assert_eq!((tag.is_biased(), log.steps()), (true, vec![]));
}

/// A freeze drops the reference of each tag that is parked, on the slot on which it was parked.
#[test]
fn a_freeze_drops_on_the_slots_of_the_tags() {
    let log = Log::begin();
    let (queue, mut freezer, mut tags) = queue(5, TAGS);
    for life in 0..3 {
        log.steps();
        for (number, tag) in (0..).zip(&mut tags) {
            park(&log, &queue, tag, (number + life) % 5, (number + life + 1) % 5);
            go_by_lane(&log, &queue, tag);
        }
        assert_eq!(freezer.start_freeze(&queue).unwrap().reclaimed, Put::Last);
        let mut wanted = vec![Killed];
        wanted.extend((0..TAGS).map(|number| Dropped((number + life + 1) % 5)));
        assert_eq!(log.steps(), wanted);
        for tag in &mut tags {
            assert_eq!(tag.try_enter(&queue, 3), BiasedEntry::Refused(Put::NotLast));
        }
        assert_eq!(log.steps(), vec![Refused(3); TAGS as usize]);
        assert!(freezer.poll_drained(&queue));
        freezer.thaw(&queue).unwrap();
        assert_eq!(log.steps(), [Looked, Revived]);
    }
}

/// A freeze tells that it drained the queue, whichever lane had the last reference.
#[test]
fn a_freeze_tells_the_last_put_of_any_lane() {
    let log = Log::begin();
    let (queue, mut freezer, mut tags) = queue(2, 4);
    log.steps();
    for number in 0..12 {
        park(&log, &queue, &mut tags[number % 4], 0, 1);
        assert_eq!(freezer.start_freeze(&queue).unwrap().reclaimed, Put::Last);
        freezer.thaw(&queue).unwrap();
        assert_eq!(log.steps(), [Killed, Dropped(1), Revived]);
    }
}

/// Each way out of a bias counts on the slot of its call: a request that a freeze finds by its lane, in its life or the next, an end of
/// the bias, and a look.
#[test]
fn a_bias_ends_on_the_slot_of_the_call() {
    let log = Log::begin();
    let (queue, mut freezer, mut tags) = queue(4, TAGS);
    for life in 0..3_u32 {
        for (number, tag) in (life..).zip(&mut tags) {
            let slot = number % 4;
            log.steps();
            park(&log, &queue, tag, 3 - slot, (slot + 1) % 4);
            assert_eq!(tag.end_bias(&queue, slot), Some(Put::NotLast));
            assert_eq!((tag.is_biased(), log.steps()), (false, vec![Dropped(slot)]));
            park(&log, &queue, tag, 3 - slot, (slot + 1) % 4);
            assert_eq!(tag.try_enter_frozen(&queue, 3 - slot), BiasedEntry::Entered);
            assert_eq!(log.steps(), []);
            assert_eq!(tag.leave(&queue, slot, false), Put::NotLast);
            assert_eq!(tag.try_enter_frozen(&queue, 3 - slot), BiasedEntry::Entered);
            assert_eq!(log.steps(), [Dropped(slot), Taken(3 - slot)]);
            assert_eq!(tag.leave(&queue, slot, false), Put::NotLast);
            log.steps();
            park(&log, &queue, tag, slot, (slot + 1) % 4);
            assert_eq!(tag.try_enter(&queue, slot), BiasedEntry::Entered);
        }
        log.steps();
        assert_eq!(freezer.start_freeze(&queue).unwrap().put, Put::NotLast);
        assert_eq!(log.steps(), [Killed]);
        let (before, after) = tags.split_at_mut(500);
        for (number, tag) in (life..).zip(before) {
            assert_eq!(tag.leave(&queue, number % 4, true), Put::NotLast);
            assert_eq!((tag.is_biased(), log.steps()), (false, vec![Dropped(number % 4)]));
        }
        freezer.thaw(&queue).unwrap();
        assert_eq!(log.steps(), [Revived]);
        for (number, tag) in (life..).zip(after) {
            assert_eq!(tag.leave(&queue, number % 4, true), Put::NotLast);
            assert_eq!((tag.is_biased(), log.steps()), (false, vec![Dropped(number % 4)]));
        }
    }
}

/// A request that a freeze finds at the gate isn't parked, and leaves on the slot of its call.
#[test]
fn a_tag_that_cannot_be_parked_leaves_on_its_slot() {
    let log = Log::begin();
    let (queue, mut freezer, mut tags) = queue(3, 2);
    for _ in 0..3 {
        for tag in &mut tags {
            assert_eq!(tag.try_enter(&queue, 1), BiasedEntry::Entered);
        }
        freezer.start_freeze(&queue).unwrap();
        log.steps();
        for (tag, put) in tags.iter_mut().zip([Put::NotLast, Put::Last]) {
            assert_eq!(tag.leave(&queue, 2, true), put);
            assert_eq!((tag.is_biased(), log.steps()), (false, vec![Dropped(2)]));
        }
        freezer.thaw(&queue).unwrap();
    }
}

/// Enters on slot 1 and leaves on slot 2, again and again.
fn goes(queue: &BlockQueue, tag: &mut BiasedTag, is_over: &AtomicBool) {
    while !is_over.load(SeqCst) {
        match tag.try_enter(queue, 1) {
            BiasedEntry::Entered => drop(tag.leave(queue, 2, true)),
            _ => thread::yield_now(),
        }
    }
}

/// A freeze that finds an owner about to enter leaves the reference to it. The owner drops it on the slot of its try. (With one processor
/// that hardly comes about.)
#[test]
fn an_owner_that_is_too_late_drops_on_its_slot() {
    const MOST_ROUNDS: u64 = 20_000;
    const ENOUGH: u64 = 5;
    let log = Log::begin();
    let (queue, mut freezer, mut tags) = queue(3, 3);
    let (is_over, mut late) = (AtomicBool::new(false), 0);
    log.steps();
    thread::scope(|scope| {
        for tag in &mut tags {
            scope.spawn(|| goes(&queue, tag, &is_over));
        }
        for _ in 0..MOST_ROUNDS {
            freezer.start_freeze(&queue).unwrap();
            while !freezer.poll_drained(&queue) {
                thread::yield_now();
            }
            freezer.thaw(&queue).unwrap();
            for step in log.steps() {
                late += u64::from(step == Dropped(1));
                let is_known = matches!(step, Taken(1) | Refused(1) | Dropped(1 | 2) | Killed | Revived | Looked);
                if !is_known {
                    is_over.store(true, SeqCst);
                    panic!("{step:?}");
                }
            }
            if late >= ENOUGH {
                break;
            }
        }
        is_over.store(true, SeqCst);
    });
}

/// A new queue switches to its slots, and a request with no bias is one step in and one out.
#[test]
fn a_tag_without_a_bias_takes_two_steps() {
    let log = Log::begin();
    let (queue, _freezer, mut tags) = queue(512, 1);
    assert!(matches!(log.steps()[..], [Switched(_)]));
    for slot in 0..512 {
        assert_eq!(tags[0].try_enter(&queue, slot), BiasedEntry::Entered);
        assert_eq!(tags[0].leave(&queue, 511 - slot, false), Put::NotLast);
        assert_eq!(log.steps(), [Taken(slot), Dropped(511 - slot)]);
    }
}
