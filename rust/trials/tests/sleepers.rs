//! Tests that a thread which waits at a queue is woken, once, by the event that it waits for. Also tests sharing a freezer, and freezing two
//! queues together.

use blkq::erased::freeze_queue::{BlockQueue, Enter, FreezeFault, Freezer, Limits, Put, SharedFreezer, Tag};
use std::sync::atomic::{AtomicU64, Ordering::SeqCst};
use std::thread;
use std::time::Duration;

#[path = "shared/kinds.rs"]
mod kinds;
#[path = "shared/texts.rs"]
mod texts;
#[path = "shared/turns.rs"]
mod turns;
use kinds::limits_of_each_kind;
use texts::texts_of;
use turns::{insist, until, wait_for};

/// The time for the other thread to fall asleep.
const PAUSE: Duration = Duration::from_millis(20);

/// A queue of one slot for a device of 8 sectors, its freezer and its tag.
fn with_one_tag() -> (BlockQueue, Freezer, Tag) {
    let (queue, freezer, mut tags) = BlockQueue::new(Limits::start(8).expect("limits"), 1, 1).expect("memory");
    (queue, freezer, tags.swap_remove(0))
}

/// The same, and the tag has entered.
fn with_one_entered() -> (BlockQueue, Freezer, Tag) {
    let (queue, freezer, mut tag) = with_one_tag();
    assert_eq!(queue.try_enter(&mut tag, 0), Enter::Entered);
    (queue, freezer, tag)
}

/// A freezer sleeps until the one entered tag has left by this call. Returns the results of the freeze and of the call.
fn freezes_beside<T>(leaves: impl FnOnce(&BlockQueue, &mut Tag) -> T) -> (Result<u32, FreezeFault>, T) {
    let (queue, mut freezer, mut tag) = with_one_entered();
    assert_eq!(freezer.start_freeze(&queue), Ok(1));
    thread::scope(|scope| {
        let freezes = scope.spawn(|| freezer.freeze(&queue));
        thread::sleep(PAUSE);
        let left = leaves(&queue, &mut tag);
        (freezes.join().expect("a freeze that ends"), left)
    })
}

#[test]
fn the_last_leaver_wakes_the_freezer() {
    assert_eq!(freezes_beside(|queue, tag| queue.leave(tag, 0)), (Ok(2), Put::Last));
}

/// A biased tag whose bias a freeze has ended leaves by the gate. As the last to leave it wakes the freezer.
#[test]
fn a_biased_tag_that_is_last_wakes_the_freezer() {
    let (queue, mut freezer, tag) = with_one_tag();
    let mut tag = tag.into_biased(freezer.limits());
    queue.enter_by_lane(&mut tag, 0);
    assert_eq!(queue.leave_by_lane(&mut tag, 0, true), Put::NotLast);
    queue.enter_by_lane(&mut tag, 0);
    thread::scope(|scope| {
        let freezes = scope.spawn(|| freezer.freeze(&queue));
        thread::sleep(PAUSE);
        assert_eq!(queue.leave_by_lane(&mut tag, 0, true), Put::Last);
        assert_eq!(freezes.join().expect("a freeze that ends"), Ok(1));
    });
}

/// Thaws, under the lock.
fn thaw(shared: &SharedFreezer<'_>) -> Result<u32, FreezeFault> {
    let mut guard = shared.lock();
    let pair = &mut *guard;
    pair.freezer.thaw(pair.queue)
}

#[test]
fn the_last_thaw_wakes_submitters() {
    let (queue, mut freezer, mut tag) = with_one_tag();
    assert_eq!(freezer.freeze(&queue), Ok(1));
    let shared = SharedFreezer::new(freezer, &queue);
    thread::scope(|scope| {
        scope.spawn(|| queue.enter(&mut tag, 0));
        thread::sleep(PAUSE);
        insist(thaw(&shared) == Ok(0), "a thaw is refused");
    });
    assert_eq!(queue.leave(&mut tag, 0), Put::NotLast);
    assert_eq!(shared.into_inner().freezer.depth(), 0);
}

/// Reads the depth under the lock, until it is more than this.
fn wait_until_frozen(shared: &SharedFreezer<'_>, depth: u32) {
    until(|| shared.lock().freezer.depth() > depth);
}

/// While a shared freezer waits for a drain, other threads can read its depth, even the thread with the tag that it waits for, in a first
/// freeze and in nested ones.
#[test]
fn the_depth_is_read_while_a_freeze_waits() {
    for before in 0..3 {
        let (queue, mut freezer, mut tag) = with_one_entered();
        for depth in 1..=before {
            assert_eq!(freezer.start_freeze(&queue), Ok(depth));
        }
        let shared = SharedFreezer::new(freezer, &queue);
        let (frozen, put) = thread::scope(|scope| {
            let freezes = scope.spawn(|| shared.freeze().map(|guard| guard.freezer.depth()));
            let read = scope.spawn(|| {
                wait_until_frozen(&shared, before);
                thread::sleep(PAUSE);
                shared.lock().freezer.depth()
            });
            until(|| read.is_finished());
            insist(read.join().is_ok_and(|depth| depth == before + 1), "the depth changes in a wait");
            let put = queue.leave(&mut tag, 0);
            (freezes.join().expect("a freeze that ends"), put)
        });
        assert_eq!((frozen, put), (Ok(before + 1), Put::Last));
    }
}

/// A thaw by another thread ends the wait for a drain, which then returns a refusal.
#[test]
fn a_thaw_ends_the_wait_for_a_drain() {
    let (queue, freezer, _tag) = with_one_entered();
    let shared = SharedFreezer::new(freezer, &queue);
    let (frozen, thawed) = thread::scope(|scope| {
        let freezes = scope.spawn(|| shared.freeze().map(|guard| guard.freezer.depth()));
        wait_until_frozen(&shared, 0);
        thread::sleep(PAUSE);
        let thawed = thaw(&shared);
        (freezes.join().expect("a freeze that ends"), thawed)
    });
    assert_eq!((frozen, thawed), (Err(FreezeFault::NotFrozen), Ok(0)));
}

/// A wait for the drain of a live queue is refused.
#[test]
fn a_live_queue_is_not_waited_for() {
    let (queue, mut freezer, _tag) = with_one_tag();
    let refused = thread::scope(|scope| {
        let waits = scope.spawn(|| freezer.wait_drained(&queue));
        until(|| waits.is_finished());
        waits.join().expect("a wait that ends")
    });
    assert_eq!(refused, Err(FreezeFault::NotFrozen));
    let shared = SharedFreezer::new(freezer, &queue);
    assert_eq!(shared.wait_drained().err(), Some(FreezeFault::NotFrozen));
}

/// Sharing a freezer, locking it, waiting for a drain that is over and taking it back change nothing, and it stays the freezer of its queue.
fn stays_as_it_was(limits: Limits, before: u32) {
    let first = Limits::start(limits.hw()).expect("limits");
    let (queue, mut freezer, mut tags) = BlockQueue::new(first, 2, 1).expect("memory");
    let shown = |freezer: &Freezer| (freezer.depth(), freezer.limits());
    (1..=before).for_each(|depth| assert_eq!(freezer.start_freeze(&queue), Ok(depth)));
    assert_eq!(freezer.set(&queue, limits), Ok(()));
    let shared = SharedFreezer::new(freezer, &queue);
    for depth in before..before + 3 {
        assert_eq!(shown(&shared.lock().freezer), (depth, limits));
        assert_eq!(shared.wait_drained().map(|guard| shown(&guard.freezer)), Ok((depth, limits)));
        assert_eq!(shared.freeze().map(|guard| shown(&guard.freezer)), Ok((depth + 1, limits)));
    }
    let mut pair = shared.into_inner();
    assert_eq!(shown(&pair.freezer), (before + 3, limits));
    (0..before + 3).rev().for_each(|depth| assert_eq!(pair.freezer.thaw(pair.queue), Ok(depth)));
    assert_eq!(queue.try_enter(&mut tags[0], 1), Enter::Entered);
    assert_eq!(queue.limits(&mut tags[0]), limits);
}

/// The same under each limits, at each depth from which three freezes are left.
#[test]
fn a_shared_freezer_is_as_it_was() {
    for limits in limits_of_each_kind() {
        (1..=4).for_each(|depth| stays_as_it_was(limits, depth));
    }
    (1..=997).for_each(|depth| stays_as_it_was(Limits::start(8).expect("limits"), depth));
}

/// Two queues that are frozen together are each drained by their own tag; here the queue that was frozen first drains first.
#[test]
fn the_first_frozen_drains_first() {
    let mut both = [with_one_entered(), with_one_entered()];
    for (queue, freezer, _) in &mut both {
        assert_eq!(freezer.start_freeze(queue), Ok(1));
        assert!(!freezer.poll_drained(queue));
    }
    let [(first, freezer, tag), (second, other_freezer, other_tag)] = &mut both;
    assert_eq!(first.leave(tag, 0), Put::Last);
    assert!(freezer.poll_drained(first));
    assert!(!other_freezer.poll_drained(second));
    assert_eq!(second.leave(other_tag, 0), Put::Last);
    assert!(other_freezer.poll_drained(second));
}

/// The same if the queue that was frozen last drains first, while the freezer waits for the other.
#[test]
fn the_last_frozen_drains_first() {
    let (first, mut freezer, mut tag) = with_one_entered();
    let (second, mut other_freezer, mut other_tag) = with_one_entered();
    let frozen = AtomicU64::new(0);
    let (drained, left) = thread::scope(|scope| {
        let freezes = scope.spawn(|| {
            insist(freezer.start_freeze(&first) == Ok(1), "a freeze is refused");
            insist(other_freezer.start_freeze(&second) == Ok(1), "a freeze is refused");
            frozen.store(1, SeqCst);
            [freezer.wait_drained(&first), other_freezer.wait_drained(&second)]
        });
        wait_for(&frozen, 1);
        let left = [second.leave(&mut other_tag, 0), first.leave(&mut tag, 0)];
        (freezes.join().expect("waits that end"), left)
    });
    assert_eq!((drained, left), ([Ok(()); 2], [Put::Last; 2]));
}

#[test]
fn faults_have_numbers_and_texts() {
    use FreezeFault::{DepthFull, NotDrained, NotFrozen, TagsOut, WornOut};
    let faults = [DepthFull, NotFrozen, NotDrained, TagsOut(2), WornOut];
    assert_eq!(faults.map(|it| it.number()), [1, 2, 3, 4, 5]);
    assert_eq!(texts_of(faults), ["depth full", "not frozen", "not drained", "2 tags out", "worn out"]);
    let (queue, freezer, _tag) = with_one_tag();
    let left = freezer.remove(queue, Vec::new()).map_err(|refused| (refused.number(), refused.why));
    assert_eq!(left, Err((4, TagsOut(1))));
}
