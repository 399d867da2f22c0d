//! Which steps the calls of the waiting queue and of its callers take.

use crate::erased::freeze_queue::{BlockQueue, Enter, Freezer, Limits, Put, SharedFreezer, Tag};
use crate::erased::percpu_gate::{Gate, Start};
use crate::erased::thread::{AT_YIELD, IS_SECOND_FIRST};
use crate::erased::uses::{Raced, Request, Served, enter_under, race, submit_next};
use crate::gate::Log;
use crate::gate::Step::{self, Dropped, Looked, Refused, Taken};
use std::cell::RefCell;
use std::rc::Rc;
use std::thread;
use std::time::Duration;

use crate::turns::{insist, until};

fn with_one_tag() -> (BlockQueue, Freezer, Tag) {
    let (queue, freezer, mut tags) = BlockQueue::new(Limits::start(8).expect("limits"), 3, 1).expect("memory");
    (queue, freezer, tags.swap_remove(0))
}

/// On a live queue each call is one step on its slot, and a request of a biased tag is none.
#[test]
fn a_call_of_a_live_queue_is_one_step() {
    let log = Log::begin();
    let (queue, freezer, mut tag) = with_one_tag();
    log.steps();
    for (way, slot) in (0..9).map(|round| (round % 3, round / 3)) {
        match way {
            0 => assert_eq!(queue.try_enter(&mut tag, slot), Enter::Entered),
            1 => assert_eq!(queue.try_enter_frozen(&mut tag, slot), Enter::Entered),
            _ => queue.enter(&mut tag, slot),
        }
        assert_eq!(log.steps(), [Taken(slot)]);
        assert_eq!(queue.leave(&mut tag, 2 - slot), Put::NotLast);
        assert_eq!(log.steps(), [Dropped(2 - slot)]);
    }
    let mut tag = tag.into_biased(freezer.limits());
    queue.enter_by_lane(&mut tag, 1);
    assert_eq!(queue.leave_by_lane(&mut tag, 2, true), Put::NotLast);
    assert_eq!(log.steps(), [Taken(1)]);
    let made = submit_next(&queue, &mut tag, 0, Request { first: 0, sectors: 8 }).map(|commands| commands.len());
    assert_eq!((made, log.steps()), (Ok(1), vec![]));
}

/// Calls this while the queue is frozen, and thaws once it was refused so often. Returns its steps but those refusals.
fn steps_while_frozen(refusals: usize, call: impl FnOnce(&BlockQueue, &mut Tag) + Send) -> Vec<Step> {
    let log = Log::begin();
    let (queue, mut freezer, mut tag) = with_one_tag();
    let (mut steps, mut refused) = (vec![], 0);
    queue.enter(&mut tag, 0);
    insist(freezer.start_freeze(&queue) == Ok(1), "a freeze is refused");
    log.steps();
    let (queue, tag) = (&queue, &mut tag);
    thread::scope(|scope| {
        let calls = scope.spawn(|| call(queue, tag));
        until(|| {
            queue.thawed.wake_all();
            let (tries, others) = log.steps().into_iter().partition::<Vec<_>, _>(|step| *step == Refused(1));
            refused += tries.len();
            steps.extend(others);
            insist(!calls.is_finished(), "it returns from a frozen queue");
            refused >= refusals
        });
        insist(freezer.thaw(queue) == Ok(0), "a thaw is refused");
    });
    steps.extend(log.steps());
    steps.retain(|step| !matches!(step, Refused(1) | Step::Killed | Step::Revived));
    steps
}

/// A tag that waits for the thaw leaves once and enters once, on its slot, and however often it was woken in vain.
#[test]
fn a_tag_that_waits_enters_once() {
    for refusals in [1, 9, 20_000] {
        let waits = steps_while_frozen(refusals, |queue, tag| {
            queue.leave(tag, 2);
            queue.enter(tag, 1);
        });
        assert_eq!(waits, [Dropped(2), Taken(1)]);
    }
}

/// A freeze of this queue waits until the tag leaves, although it is woken in vain again and again, and looks each time.
fn drains_late(depth: u32, freeze: impl FnOnce(&BlockQueue, Freezer) -> Option<u32> + Send) {
    let log = Log::begin();
    let (queue, mut freezer, mut tag) = with_one_tag();
    queue.enter(&mut tag, 0);
    (1..depth).for_each(|depth| assert_eq!(freezer.start_freeze(&queue), Ok(depth)));
    let frozen = thread::scope(|scope| {
        let freezes = scope.spawn(|| freeze(&queue, freezer));
        let mut looks = 0;
        until(|| {
            queue.drained.wake_all();
            queue.freezer.unpark();
            looks += log.steps().into_iter().filter(|step| *step == Looked).count();
            insist(!freezes.is_finished(), "a freeze ends before the drain");
            looks >= 20_000
        });
        assert_eq!(queue.leave(&mut tag, 0), Put::Last);
        freezes.join().expect("a freeze that ends")
    });
    assert_eq!(frozen, Some(depth));
}

/// The same by a freezer that one thread has, and by one that is shared, in a first freeze and in nested ones.
#[test]
fn a_wait_for_the_drain_outlasts_vain_wakes() {
    for depth in 1..=3 {
        drains_late(depth, |queue, mut freezer| freezer.freeze(queue).ok());
        drains_late(depth, |queue, freezer| {
            let shared = SharedFreezer::new(freezer, queue);
            shared.freeze().map(|guard| guard.freezer.depth()).ok()
        });
    }
}

/// A tag that finds the limits that it wants enters once. One that finds others leaves and enters again, on its slot.
#[test]
fn a_tag_that_finds_its_limits_stays() {
    let log = Log::begin();
    let (queue, mut freezer, mut tag) = with_one_tag();
    let [wide, narrow] = [8, 4].map(|most| Limits::new(8, most, 0).expect("limits"));
    for limits in [wide, narrow] {
        assert_eq!(freezer.freeze(&queue), Ok(1));
        assert_eq!(freezer.set(&queue, limits), Ok(()));
        assert_eq!(freezer.thaw(&queue), Ok(0));
        log.steps();
        enter_under(&queue, &mut tag, 2, &limits);
        assert_eq!(log.steps(), [Taken(2)]);
        queue.leave(&mut tag, 0);
    }
}

/// What another thread does at the yields of `enter_under`.
struct AtYields {
    queue: BlockQueue,
    freezer: RefCell<Freezer>,
    log: Log,
    slot: u32,
}

/// At its next yield the thread has entered and left, and so the queue drains at once. It then finds the first of these limits in force, and
/// the others at its later yields.
fn sets_at_yields(world: Rc<AtYields>, mut limits: impl Iterator<Item = Limits> + 'static) {
    AT_YIELD.with(|at| {
        at.set(move || {
            let AtYields { queue, freezer, log, slot } = &*world;
            assert_eq!(log.steps(), [Taken(*slot), Dropped(*slot)]);
            let mut freezer = freezer.borrow_mut();
            assert_eq!(freezer.start_freeze(queue), Ok(1));
            assert!(freezer.poll_drained(queue), "a thread yields while it is entered");
            let next = limits.next().expect("limits that are wanted");
            assert_eq!((freezer.set(queue, next), freezer.thaw(queue)), (Ok(()), Ok(0)));
            log.steps();
            drop(freezer);
            sets_at_yields(world, limits);
        });
    });
}

/// A tag that finds other limits, one time or many, yields once for each, when it has left. So another thread can change them meanwhile.
#[test]
fn a_tag_that_finds_other_limits_yields_when_it_is_out() {
    let limits = |max: u32, chunk| Limits::new(8, max, chunk).expect("limits");
    for (slots, others) in [1, 2, 3, 64, 512].into_iter().flat_map(|slots| [1, 2, 9, 1_000].map(|it| (slots, it))) {
        for slot in [0, slots / 2, slots - 1] {
            let log = Log::begin();
            let (queue, freezer, mut tags) = BlockQueue::new(limits(8, 0), slots, 1).expect("memory");
            log.steps();
            let world = Rc::new(AtYields { queue, freezer: RefCell::new(freezer), log, slot });
            // Each of the others has the largest request of the wanted limits, or their chunk.
            let wanted = limits(3, 5);
            let before = (1..others).map(move |it| if it % 2 == 0 { limits(3, it) } else { limits(4 + it % 5, 5) });
            sets_at_yields(Rc::clone(&world), before.chain([wanted]));
            enter_under(&world.queue, &mut tags[0], slot, &wanted);
            assert_eq!((world.log.steps(), world.queue.limits(&mut tags[0])), (vec![Taken(slot)], wanted));
            AT_YIELD.with(|at| at.set(|| ()));
        }
    }
}

/// The number of looks before a freezer sleeps: seven, between which it pauses and never yields, and one before it sleeps.
const LOOKS: usize = 8;

/// The refused tries and the looks at the gate since the last call of this.
fn refused_and_looked(log: &Log) -> (usize, usize) {
    let steps = log.steps();
    let count = |is_so: fn(&Step) -> bool| steps.iter().filter(|step| is_so(step)).count();
    (count(|step| matches!(step, Refused(_))), count(|step| *step == Looked))
}

/// Waits until there were so many looks, and a while longer: there are no more.
fn looks(log: &Log, wanted: usize) {
    let mut looked = 0;
    let mut look = || {
        looked += refused_and_looked(log).1;
        looked >= wanted
    };
    until(&mut look);
    thread::sleep(Duration::from_millis(50));
    look();
    insist(looked == wanted, "a freezer looks without a wake, or is woken in vain");
}

/// A freezer looks a few times, and sleeps until the drain. No try that is refused meanwhile wakes it, in each life of the queue.
#[test]
fn a_refused_try_wakes_no_freezer() {
    let log = Log::begin();
    let (queue, mut freezer, mut tags) = BlockQueue::new(Limits::start(8).expect("limits"), 3, 2).expect("memory");
    let [inside, waiting] = &mut tags[..] else { panic!("two tags") };
    for _ in 0..3 {
        queue.enter(inside, 0);
        log.steps();
        thread::scope(|scope| {
            let freezes = scope.spawn(|| {
                insist(freezer.freeze(&queue) == Ok(1), "a freeze is refused");
                freezer.thaw(&queue)
            });
            looks(&log, LOOKS);
            let enters = scope.spawn(|| queue.enter(waiting, 1));
            let (mut refused, mut looked) = (0, 0);
            until(|| {
                queue.thawed.wake_all();
                let (tries, looks) = refused_and_looked(&log);
                (refused, looked) = (refused + tries, looked + looks);
                refused >= 1_000
            });
            insist(looked == 0, "a refused try wakes the freezer");
            queue.leave(inside, 2);
            enters.join().expect("an entry that ends");
            assert_eq!(freezes.join().expect("a freeze that ends"), Ok(0));
        });
        queue.leave(waiting, 2);
    }
}

/// A shared freezer that waits for the drain isn't woken by the freezes of other threads, each of which looks a few times too.
#[test]
fn a_nested_freeze_wakes_no_freezer() {
    let log = Log::begin();
    let (queue, freezer, mut tag) = with_one_tag();
    queue.enter(&mut tag, 0);
    log.steps();
    let shared = SharedFreezer::new(freezer, &queue);
    thread::scope(|scope| {
        let freeze = || drop(scope.spawn(|| insist(shared.freeze().is_ok(), "a freeze is refused")));
        for _ in 0..4 {
            freeze();
            looks(&log, LOOKS);
        }
        assert_eq!(queue.leave(&mut tag, 0), Put::Last);
    });
    assert_eq!(shared.into_inner().freezer.depth(), 4);
}

/// A race runs neither call before the other one may begin: each can be first, in either mode and with any number of slots.
#[test]
fn each_call_of_a_race_can_be_first() {
    let modes = [Start::Atomic, Start::Slots].into_iter();
    for (start, slots) in modes.flat_map(|start| (1..=512).map(move |slots| (start, slots))) {
        for (is_request_first, served) in [(true, Served::Done(Put::NotLast)), (false, Served::Gone(Put::NotLast))] {
            IS_SECOND_FIRST.set(is_request_first);
            let (gate, control, mut passes) = Gate::new(slots, 1, start, [7]).expect("memory");
            let raced = race(gate, passes.swap_remove(0), control);
            assert_eq!(raced, Raced { served, removed: Put::Last }, "{slots} slots");
        }
    }
}
