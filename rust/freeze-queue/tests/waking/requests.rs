//! On which slots the requests of the crate count.

use crate::errors::EnterError;
use crate::gate::Step::{self, Dropped, Refused, Taken};
use crate::gate::{BEFORE_DROP, Log};
use crate::limits::Limits;
use crate::queue::Queue;
use crate::sync::BEFORE_LOCK;
use crate::tag::Tag;
use crate::threads;
use std::sync::mpsc;
use std::thread;
use std::time::{Duration, Instant};

const SLOTS: u32 = 3;

fn queue(tags: u32) -> Queue {
    Queue::builder(Limits::of_hardware(8)).slots(SLOTS).tags(tags).build().unwrap()
}

/// Returns the steps by which references were taken and dropped.
fn counted(log: &Log) -> Vec<Step> {
    log.steps().into_iter().filter(|step| matches!(step, Taken(_) | Dropped(_))).collect()
}

/// Enters and leaves until the tag is biased, as no other is. A change pauses biases for a while.
fn biased(queue: &Queue, tag: &mut Tag) {
    let began = Instant::now();
    while queue.stats().biased == 0 {
        assert!(began.elapsed() < Duration::from_secs(600), "no bias begins");
        drop(queue.enter(tag).unwrap());
    }
}

/// A kept tag counts on the slot of its number: as it enters and leaves, and as a freeze or a watch ends its bias.
#[test]
fn a_kept_tag_counts_on_its_slot() {
    let log = Log::begin();
    let queue = queue(7);
    let mut tags: Vec<_> = (0..7).map(|_| queue.tag().unwrap()).collect();
    for at in 0..21 {
        let tag = &mut tags[at % 7];
        let slot = u32::try_from(tag.number()).unwrap() % SLOTS;
        biased(&queue, tag);
        assert!(counted(&log).iter().all(|step| matches!(step, Taken(on) | Dropped(on) if *on == slot)));
        queue.watch(true);
        drop(queue.enter(tag).unwrap());
        assert_eq!(counted(&log), [Dropped(slot), Taken(slot), Dropped(slot)]);
        queue.watch(false);
        biased(&queue, tag);
        counted(&log);
        let request = queue.enter(tag).unwrap();
        assert_eq!(counted(&log), []);
        thread::scope(|scope| {
            scope.spawn(|| drop(queue.freeze().unwrap()));
            while queue.depth() == 0 {
                thread::yield_now();
            }
            drop(request);
        });
        assert_eq!(counted(&log), [Dropped(slot)]);
    }
}

/// A request of any tag counts on the slot of its thread, whichever thread had the tag before.
#[test]
fn a_request_of_any_tag_counts_on_the_slot_of_its_thread() {
    let log = Log::begin();
    let queue = queue(1);
    queue.watch(true);
    for _ in 0..5 {
        // Threads that live together have numbers of their own.
        let (sender, hold) = std::sync::mpsc::channel::<()>();
        let hold = std::sync::Mutex::new(hold);
        thread::scope(|scope| {
            for _ in 0..4 {
                let slots = scope.spawn(|| (threads::hint().0 % SLOTS, drop(queue.enter_any().unwrap())).0);
                let _other = scope.spawn(|| {
                    threads::hint();
                    let _ended = hold.lock().unwrap().recv();
                });
                let slot = slots.join().unwrap();
                assert_eq!(counted(&log), [Taken(slot), Dropped(slot)]);
            }
            drop(sender);
        });
    }
}

/// A request whose tag a freeze has in hand waits for the freezer and tries again, on the slot of its tag.
#[test]
fn a_request_whose_tag_is_in_hand_counts_on_its_slot() {
    let log = Log::begin();
    let queue = queue(7);
    let mut tags: Vec<_> = (0..7).map(|_| queue.tag().unwrap()).collect();
    for tag in &mut tags {
        let slot = u32::try_from(tag.number()).unwrap() % SLOTS;
        biased(&queue, tag);
        counted(&log);
        let (freezer, owner) = (mpsc::channel(), mpsc::channel());
        thread::scope(|scope| {
            let freezes = scope.spawn(|| {
                let (in_hand, tries) = (freezer.0, owner.1);
                BEFORE_DROP.with(|hook| {
                    hook.set(move || {
                        in_hand.send(()).unwrap();
                        tries.recv().unwrap();
                    });
                });
                queue.freeze().unwrap()
            });
            freezer.1.recv().unwrap();
            BEFORE_LOCK.with(|hook| hook.set(move || owner.0.send(()).unwrap()));
            assert_eq!(queue.try_enter(tag).err(), Some(EnterError::Frozen));
            drop(freezes.join().unwrap());
        });
        let mine = thread::current().id();
        let by_owner: Vec<_> =
            log.by_thread().into_iter().filter(|(by, _)| *by == mine).map(|(_, step)| step).collect();
        assert_eq!(by_owner.first(), Some(&Refused(slot)), "{by_owner:?}");
    }
}

/// Threads that live together take one tag in turns, often: each counts on its own slot each time.
#[test]
fn each_request_of_any_tag_counts_on_the_slot_of_its_thread() {
    let log = Log::begin();
    let queue = queue(1);
    queue.watch(true);
    let threads: [_; 3] = std::array::from_fn(|_| mpsc::channel::<()>());
    let (done, is_done) = mpsc::channel();
    let [(first, a), (second, b), (third, c)] = threads;
    thread::scope(|scope| {
        for turns in [a, b, c] {
            let (done, queue) = (done.clone(), &queue);
            scope.spawn(move || {
                let slot = threads::hint().0 % SLOTS;
                for () in turns {
                    drop(queue.enter_any().unwrap());
                    done.send(slot).unwrap();
                }
            });
        }
        let turns = [first, second, third];
        for turn in 0..12 {
            turns[turn % 3].send(()).unwrap();
            let slot = is_done.recv().unwrap();
            assert_eq!(counted(&log), [Taken(slot), Dropped(slot)], "turn {turn}");
        }
    });
}

/// A tag that is handed to a thread in line counts on that thread's slot.
#[test]
fn a_request_that_waited_for_its_tag_counts_on_the_slot_of_its_thread() {
    let log = Log::begin();
    let queue = queue(1);
    queue.watch(true);
    let request = queue.enter_any().unwrap();
    let mine = threads::hint().0 % SLOTS;
    counted(&log);
    let slots: Vec<_> = thread::scope(|scope| {
        let enters = || {
            let slot = threads::hint().0 % SLOTS;
            drop(queue.enter_any().unwrap());
            (thread::current().id(), slot)
        };
        let all = [0; 3].map(|_| scope.spawn(enters));
        while queue.stats().waited < 3 {
            thread::yield_now();
        }
        drop(request);
        all.map(|thread| thread.join().unwrap()).into()
    });
    assert!(slots.iter().any(|(_, slot)| *slot != mine), "threads that live together have slots of their own");
    let steps = log.by_thread();
    for (thread, slot) in slots {
        let of_thread = steps.iter().filter(|(by, _)| *by == thread).map(|(_, step)| step);
        let mut on_slots = of_thread.filter(|step| matches!(step, Taken(_) | Dropped(_)));
        assert!(on_slots.all(|step| [Taken(slot), Dropped(slot)].contains(step)), "{steps:?}");
    }
}
