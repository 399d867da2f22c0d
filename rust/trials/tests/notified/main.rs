//! Tests which threads are woken, and how often. A needless wake, and a wait that polls, keep every contract. The queue's erased files are
//! compiled again here over waits that count.

extern crate alloc;

pub mod counting;
#[allow(dead_code, unused_imports, clippy::all, clippy::pedantic)]
mod erased;
#[path = "../shared/kinds.rs"]
mod kinds;
pub mod parking;
#[allow(dead_code)]
#[path = "../shared/turns.rs"]
mod turns;

use crate::counting::WaitQueue;
use crate::erased::freeze_queue::{
    BiasedEntry, BiasedTag, BlockQueue, Enter, Freezer, Limits, Mode, Put, SharedFreezer, Tag,
};
use crate::erased::queue_core::Stay;
use kinds::limits_of_each_kind;
use std::sync::Arc;
use std::sync::atomic::{AtomicBool, AtomicU64, Ordering::SeqCst};
use std::thread;
use std::time::Duration;
use turns::{insist, until};

/// The number of tries before a thread sleeps: seven before it announces its wait, and one after.
const LOOKS: u64 = 8;
/// The time for a thread to fall asleep, or to be woken needlessly.
const PAUSE: Duration = Duration::from_millis(20);

fn queue(slots: u32, tags: u32) -> (BlockQueue, Freezer, Vec<Tag>) {
    queue_of(Limits::start(8).expect("limits"), slots, tags)
}

fn queue_of(limits: Limits, slots: u32, tags: u32) -> (BlockQueue, Freezer, Vec<Tag>) {
    BlockQueue::new(limits, slots, tags).expect("memory")
}

/// How often all waiters for the drain, and all waiters for the thaw, were woken. No waiter is ever woken alone.
fn woken(queue: &BlockQueue) -> (u64, u64) {
    assert_eq!((queue.drained.ones.load(SeqCst), queue.thawed.ones.load(SeqCst)), (0, 0));
    (queue.drained.alls.load(SeqCst), queue.thawed.alls.load(SeqCst))
}

/// A live queue wakes nobody.
#[test]
fn requests_of_a_live_queue_wake_nobody() {
    let (queue, mut freezer, mut tags) = queue(2, 2);
    for tag in &mut tags {
        for slot in 0..2 {
            queue.enter(tag, slot);
            assert_eq!(queue.core.stay(tag, slot), Stay::Stayed);
            assert_eq!(queue.leave(tag, slot), Put::NotLast);
            assert_eq!(queue.try_enter_frozen(tag, slot), Enter::Entered);
            assert_eq!(queue.leave(tag, slot), Put::NotLast);
        }
    }
    for tag in tags {
        let mut tag = tag.into_biased(freezer.limits());
        for slot in [0, 1, 0] {
            queue.enter_by_lane(&mut tag, slot);
            assert_eq!(queue.leave_by_lane(&mut tag, slot, true), Put::NotLast);
        }
        assert_eq!(queue.end_bias(&mut tag, 1), Some(Put::NotLast));
        assert_eq!(queue.look_in(&mut tag, 1), BiasedEntry::Entered);
        assert_eq!(queue.leave_by_lane(&mut tag, 0, false), Put::NotLast);
    }
    for mode in [Mode::Atomic, Mode::Atomic, Mode::Slots] {
        freezer.mode(&queue, mode);
    }
    assert_eq!(woken(&queue), (0, 0));
}

/// Three tags of a frozen queue leave on this slot: only the last to go wakes. Refused tries wake nobody.
fn leave_one_by_one(limits: Limits, slots: u32, slot: u32) {
    let (queue, mut freezer, mut tags) = queue_of(limits, slots, 4);
    let other = slots - 1 - slot;
    let of_freezer = freezer.parker.unparker();
    assert!(Arc::ptr_eq(&queue.freezer.counts, &of_freezer.counts), "another freezer is woken, {limits:?}");
    let (late, tags) = tags.split_last_mut().expect("tags");
    tags.iter_mut().for_each(|tag| queue.enter(tag, other));
    assert_eq!(freezer.start_freeze(&queue), Ok(1));
    for (tag, before) in tags.iter_mut().zip([2_u64, 1, 0]) {
        assert_eq!(queue.try_enter(late, other), Enter::Again);
        assert_eq!((freezer.poll_drained(&queue), woken(&queue)), (false, (0, 0)));
        let put = if before == 0 { Put::Last } else { Put::NotLast };
        assert_eq!(queue.leave(tag, slot), put);
    }
    assert_eq!((freezer.poll_drained(&queue), woken(&queue)), (true, (1, 0)), "slot {slot} of {slots}, {limits:?}");
    assert_eq!(queue.freezer.counts.unparks.load(SeqCst), 1);
    assert_eq!([queue.try_enter(late, slot), queue.try_enter_frozen(late, other)], [Enter::Again; 2]);
    assert_eq!(woken(&queue), (1, 0));
}

/// The last to leave wakes on each slot, whatever the limits are.
#[test]
fn the_last_to_leave_wakes_alone() {
    for limits in limits_of_each_kind() {
        for (slots, slot) in [(1, 0), (2, 0), (2, 1), (3, 1), (64, 63), (512, 0), (512, 300), (512, 511)] {
            leave_one_by_one(limits, slots, slot);
        }
    }
}

/// The ways in which a biased tag that was in, by its lane or not, is the last to go.
const LAST_WAYS: [fn(&BlockQueue, &mut BiasedTag) -> Option<Put>; 2] =
    [|queue, tag| Some(queue.leave_by_lane(tag, 1, true)), |queue, tag| queue.end_bias(tag, 1)];

/// Of two biased tags, the one whose request is in is the last to go, and wakes. The freeze wakes if it takes the last bias away itself.
#[test]
fn the_last_biased_tag_to_leave_wakes_alone() {
    for (way, leaves) in LAST_WAYS.into_iter().enumerate() {
        let (queue, mut freezer, tags) = queue(2, 2);
        let mut tags: Vec<_> = tags.into_iter().map(|tag| tag.into_biased(freezer.limits())).collect();
        for tag in &mut tags {
            queue.enter_by_lane(tag, 0);
            assert_eq!(queue.leave_by_lane(tag, 0, true), Put::NotLast);
        }
        let [idle, busy] = &mut tags[..] else { panic!("two tags") };
        if way == 1 {
            assert_eq!(queue.end_bias(busy, 0), Some(Put::NotLast));
        }
        queue.enter_by_lane(busy, 0);
        assert_eq!(freezer.start_freeze(&queue), Ok(1));
        assert_eq!(queue.try_enter_by_lane(idle, 1), BiasedEntry::Refused(Put::NotLast));
        assert_eq!((freezer.poll_drained(&queue), woken(&queue)), (false, (0, 0)));
        assert_eq!(leaves(&queue, busy), Some(Put::Last));
        assert_eq!((freezer.poll_drained(&queue), woken(&queue)), (true, (1, 0)));
        assert_eq!(queue.look_in(idle, 1), BiasedEntry::Refused(Put::NotLast));
        assert_eq!((freezer.thaw(&queue), woken(&queue)), (Ok(0), (2, 1)));
        queue.enter_by_lane(idle, 0);
        assert_eq!(queue.leave_by_lane(idle, 0, true), Put::NotLast);
        assert_eq!(freezer.freeze(&queue), Ok(1));
        assert_eq!(woken(&queue), (3, 1), "the freeze takes the last bias away");
    }
}

/// Nested freezes and their settings wake nobody; of their thaws, only the last one wakes, in each life and under each limits.
#[test]
fn the_last_thaw_wakes_alone() {
    for limits in limits_of_each_kind() {
        let (queue, mut freezer, _tags) = queue_of(limits, 2, 1);
        for round in 0..3 {
            for depth in 1..=5 {
                assert_eq!(freezer.freeze(&queue), Ok(depth));
                assert_eq!(freezer.wait_drained(&queue), Ok(()));
                assert_eq!(freezer.set(&queue, limits), Ok(()));
            }
            for depth in (1..5).rev() {
                assert_eq!(freezer.thaw(&queue), Ok(depth));
            }
            assert_eq!(woken(&queue), (round, round));
            assert_eq!(freezer.thaw(&queue), Ok(0));
            assert_eq!(woken(&queue), (round + 1, round + 1), "{limits:?}");
            assert!(freezer.thaw(&queue).is_err());
            assert_eq!(woken(&queue), (round + 1, round + 1));
        }
    }
}

/// A thread that waits for the drain of these freezes looks until it sleeps, and once more when the last leave wakes it, once. It
/// wakes nobody. The tag is entered.
fn waits_for_the_drain(queue: &BlockQueue, tag: &mut Tag, depth: u32, freeze: impl FnOnce() -> Option<u32> + Send) {
    thread::scope(|scope| {
        let freezes = scope.spawn(freeze);
        until(|| queue.drained.looks.load(SeqCst) >= LOOKS || freezes.is_finished());
        insist(!freezes.is_finished(), "a freeze ends before the drain");
        thread::sleep(PAUSE);
        insist(queue.drained.looks.load(SeqCst) == LOOKS, "a wait looks without a wake");
        insist(woken(queue) == (0, 0), "a wait wakes somebody");
        insist(queue.leave(tag, 0) == Put::Last, "another leave is the last");
        insist(freezes.join().is_ok_and(|frozen| frozen == Some(depth)), "a freeze is refused");
    });
    assert_eq!((queue.drained.looks.load(SeqCst), woken(queue)), (LOOKS + 1, (1, 0)));
}

/// A wait for the drain by a shared freezer looks only a few times, in a first freeze and in nested ones, under each limits.
#[test]
fn a_wait_for_the_drain_looks_seldom() {
    for (depth, limits) in (1..=3).flat_map(|depth| limits_of_each_kind().take(35).map(move |limits| (depth, limits))) {
        let (queue, mut freezer, mut tags) = queue_of(limits, 1, 1);
        queue.enter(&mut tags[0], 0);
        (1..depth).for_each(|depth| assert_eq!(freezer.start_freeze(&queue), Ok(depth)));
        let shared = SharedFreezer::new(freezer, &queue);
        waits_for_the_drain(&queue, &mut tags[0], depth, || shared.freeze().ok().map(|guard| guard.freezer.depth()));
    }
}

/// A freezer that one thread has parks once, and again if it is woken in vain. The last leave wakes it, and no other.
#[test]
fn the_freezer_parks_once() {
    const SHAPES: [(u32, u32); 4] = [(1, 1), (2, 65), (3, 1), (1, 512)];
    for ((depth, slots), limits) in SHAPES.into_iter().cycle().zip(limits_of_each_kind().take(35)) {
        let (queue, mut freezer, mut tags) = queue_of(limits, slots, 2);
        tags.iter_mut().for_each(|tag| queue.enter(tag, 0));
        (1..depth).for_each(|depth| assert_eq!(freezer.start_freeze(&queue), Ok(depth)));
        let parked = || queue.freezer.counts.parks.load(SeqCst);
        let unparked = || queue.freezer.counts.unparks.load(SeqCst);
        thread::scope(|scope| {
            let freezes = scope.spawn(|| freezer.freeze(&queue).ok());
            until(|| parked() > 0);
            insist(queue.leave(&mut tags[0], slots - 1) == Put::NotLast, "the first leave is the last");
            thread::sleep(PAUSE);
            insist((parked(), unparked(), woken(&queue)) == (1, 0, (0, 0)), "the freezer wakes before the last leave");
            queue.freezer.unpark(); // in vain
            until(|| parked() > 1);
            thread::sleep(PAUSE);
            insist(parked() == 2, "the freezer wakes though nobody woke it");
            insist(queue.leave(&mut tags[1], slots - 1) == Put::Last, "another leave is the last");
            insist(freezes.join().is_ok_and(|frozen| frozen == Some(depth)), "a freeze is refused");
        });
        assert_eq!((parked(), unparked(), woken(&queue)), (2, 2, (1, 0)));
    }
}

/// Sixty-four threads that wait to enter look until they sleep. Nested thaws leave them asleep, and the last thaw wakes each once.
#[test]
fn each_that_waits_to_enter_is_woken_once() {
    const THREADS: u64 = 64;
    let (queue, mut freezer, mut tags) = queue(1, THREADS as u32);
    (1..=2).for_each(|depth| assert_eq!(freezer.freeze(&queue), Ok(depth)));
    thread::scope(|scope| {
        for tag in &mut tags {
            scope.spawn(|| queue.enter(tag, 0));
        }
        until(|| queue.thawed.looks.load(SeqCst) >= THREADS * LOOKS);
        insist(freezer.thaw(&queue) == Ok(1), "a thaw is refused");
        thread::sleep(PAUSE);
        insist(queue.thawed.looks.load(SeqCst) == THREADS * LOOKS, "a wait looks without a wake");
        insist(woken(&queue) == (0, 0), "a nested thaw wakes somebody");
        insist(freezer.thaw(&queue) == Ok(0), "a thaw is refused");
    });
    assert_eq!((queue.thawed.looks.load(SeqCst), woken(&queue)), (THREADS * (LOOKS + 1), (1, 1)));
}

/// Of sixty-four sleeping threads, a wake of one makes one look again, and a wake of all makes each look again.
#[test]
fn one_wake_wakes_one() {
    const THREADS: u64 = 64;
    let (waits, tokens) = (WaitQueue::new(), AtomicU64::new(0));
    let takes = || {
        let takes_one = |left: u64| left.checked_sub(1);
        let _taken = waits.announced_tries().find(|()| tokens.fetch_update(SeqCst, SeqCst, takes_one).is_ok());
    };
    let looks = |expected: u64| {
        until(|| waits.looks.load(SeqCst) >= expected);
        thread::sleep(PAUSE);
        insist(waits.looks.load(SeqCst) == expected, "another number of threads is woken");
    };
    thread::scope(|scope| {
        (0..THREADS).for_each(|_| drop(scope.spawn(takes)));
        looks(THREADS);
        waits.wake_one(); // in vain
        looks(THREADS + 1);
        tokens.store(1, SeqCst);
        waits.wake_one();
        looks(THREADS + 2);
        waits.wake_all(); // in vain, for all that are left
        looks(THREADS + 2 + THREADS - 1);
        tokens.store(THREADS - 1, SeqCst);
        waits.wake_all();
    });
    assert_eq!((tokens.into_inner(), waits.looks.into_inner()), (0, 3 * THREADS));
}

/// A waiter sleeps again after each wake in vain, however many there were: it looks once at each, and not in between.
#[test]
fn each_vain_wake_is_one_look() {
    for first in [1, LOOKS] {
        let (waits, is_over) = (WaitQueue::new(), AtomicBool::new(false));
        let waits_until_over = || match first {
            1 => waits.announced_tries().find(|()| is_over.load(SeqCst)),
            _ => waits.tries().find(|()| is_over.load(SeqCst)),
        };
        thread::scope(|scope| {
            scope.spawn(waits_until_over);
            for vain in 0..=2_048 {
                until(|| waits.looks.load(SeqCst) >= first + vain);
                if vain < 16 || vain.is_power_of_two() {
                    thread::sleep(PAUSE);
                }
                insist(waits.looks.load(SeqCst) == first + vain, "a wait looks without a wake");
                if vain % 2 == 0 { waits.wake_one() } else { waits.wake_all() }
            }
            is_over.store(true, SeqCst);
            waits.wake_all();
        });
    }
}
