//! A thread that waits is woken. The event comes some milliseconds later, on another thread. A lost wake is seen: the thread
//! doesn't return in all the time that a test has.
use freeze_queue::{EnterError, FreezeError, Queue, Tag};
use std::sync::atomic::{AtomicBool, AtomicU32, Ordering};
use std::thread;
use std::time::{Duration, Instant};

mod shared;
use shared::{LIMITS, block_on, ends, until};

const SOON: Duration = Duration::from_millis(20);
const LONG: Duration = Duration::from_secs(3600);

fn queue(tags: u32) -> (Queue, Vec<Tag>) {
    let queue = Queue::builder(LIMITS).slots(2).tags(tags).build().unwrap();
    let all = (0..tags).map(|_| queue.tag().unwrap()).collect();
    (queue, all)
}

#[test]
fn a_thaw_wakes_all_who_enter() {
    ends(|| {
        let (queue, mut tags) = queue(6);
        let (frozen, entered) = (queue.freeze().unwrap(), AtomicU32::new(0));
        thread::scope(|threads| {
            for (number, tag) in tags.iter_mut().enumerate() {
                let (queue, entered) = (&queue, &entered);
                threads.spawn(move || {
                    match number % 3 {
                        0 => drop(queue.enter(tag).unwrap()),
                        1 => drop(queue.enter_timeout(tag, LONG).unwrap()),
                        _ => drop(block_on(queue.enter_async(tag)).unwrap()),
                    }
                    entered.fetch_add(1, Ordering::SeqCst);
                });
            }
            thread::sleep(SOON);
            let nested = queue.freeze().unwrap();
            drop(frozen);
            thread::sleep(SOON);
            assert_eq!(entered.load(Ordering::SeqCst), 0);
            drop(nested);
        });
        assert_eq!(entered.load(Ordering::SeqCst), 6);
    });
}

#[test]
fn the_end_of_a_device_wakes_all_who_enter() {
    ends(|| {
        let (queue, mut tags) = queue(6);
        let frozen = queue.freeze().unwrap();
        thread::scope(|threads| {
            for (number, tag) in tags.iter_mut().enumerate() {
                let queue = &queue;
                threads.spawn(move || match number % 3 {
                    0 => assert_eq!(queue.enter(tag).unwrap_err(), EnterError::Dying),
                    1 => assert_eq!(queue.enter_timeout(tag, LONG).unwrap_err(), EnterError::Dying),
                    _ => assert_eq!(block_on(queue.enter_async(tag)).unwrap_err(), EnterError::Dying),
                });
            }
            thread::sleep(SOON);
            frozen.mark_dying();
        });
    });
}

/// The last of two requests that leave wakes two threads that freeze.
#[test]
fn the_last_to_leave_wakes_all_who_freeze() {
    ends(|| {
        let (queue, mut tags) = queue(2);
        let drained = AtomicU32::new(0);
        let [one, other] = &mut tags[..] else { unreachable!() };
        thread::scope(|threads| {
            let (first, last) = (queue.enter(one).unwrap(), queue.enter(other).unwrap());
            for _ in 0..2 {
                threads.spawn(|| {
                    let frozen = queue.freeze().unwrap();
                    drained.fetch_add(1, Ordering::SeqCst);
                    drop(frozen);
                });
            }
            threads.spawn(|| {
                let frozen = queue.freeze_timeout(LONG).unwrap();
                drained.fetch_add(1, Ordering::SeqCst);
                drop(frozen);
            });
            until("three freeze", || queue.depth() == 3);
            drop(first);
            thread::sleep(SOON);
            assert_eq!(drained.load(Ordering::SeqCst), 0);
            drop(last);
        });
        assert_eq!((drained.load(Ordering::SeqCst), queue.depth()), (3, 0));
    });
}

/// A freeze whose patience is at an end thaws, and wakes the threads that wait to enter. The test freezes again until one was seen,
/// since the thread that looks for it may not run while one lasts.
#[test]
fn a_late_freeze_wakes_those_who_enter() {
    ends(|| {
        let (queue, mut tags) = queue(4);
        let seen = AtomicBool::new(false);
        let (first, rest) = tags.split_first_mut().unwrap();
        let request = queue.enter(first).unwrap();
        thread::scope(|threads| {
            let late = threads.spawn(|| {
                loop {
                    let late = queue.freeze_timeout(SOON * 4).map(drop);
                    if seen.load(Ordering::SeqCst) {
                        break late;
                    }
                    assert_eq!(late, Err(FreezeError::TimedOut));
                }
            });
            until("it freezes", || queue.depth() == 1);
            seen.store(true, Ordering::SeqCst);
            for (number, tag) in rest.iter_mut().enumerate() {
                let queue = &queue;
                threads.spawn(move || match number {
                    0 => drop(queue.enter(tag).unwrap()),
                    1 => drop(queue.enter_timeout(tag, LONG).unwrap()),
                    _ => drop(block_on(queue.enter_async(tag)).unwrap()),
                });
            }
            assert_eq!(late.join().unwrap(), Err(FreezeError::TimedOut));
        });
        drop(request);
        assert_eq!(queue.depth(), 0);
    });
}

/// One whose patience is at an end neither enters nor holds the drain off.
#[test]
fn a_late_request_leaves_nothing() {
    ends(|| {
        let (queue, mut tags) = queue(2);
        let (first, rest) = tags.split_first_mut().unwrap();
        let request = queue.enter(first).unwrap();
        thread::scope(|threads| {
            let freezes = threads.spawn(|| drop(queue.freeze().unwrap()));
            until("it freezes", || queue.depth() == 1);
            let began = Instant::now();
            let late = queue.enter_timeout(&mut rest[0], SOON);
            assert_eq!(late.unwrap_err(), EnterError::TimedOut);
            assert!(began.elapsed() >= SOON && !freezes.is_finished());
            drop(request);
            freezes.join().unwrap();
        });
        assert!(queue.enter(&mut rest[0]).is_ok());
    });
}

/// A deadline beyond what a clock can show never passes: each wait ends by what it waits for.
#[test]
fn patience_without_end() {
    let secs = [u64::MAX, u64::MAX >> 2, 1 << 40];
    for patience in secs.map(Duration::from_secs).into_iter().chain([Duration::MAX]) {
        ends(move || {
            let (queue, mut tags) = queue(1);
            let mut tag = tags.pop().unwrap();
            let later = |end: Box<dyn FnOnce() + Send>| {
                thread::spawn(|| {
                    thread::sleep(SOON);
                    end();
                })
            };
            let frozen = queue.freeze().unwrap().into_owned();
            let thaws = later(Box::new(|| drop(frozen)));
            drop(queue.enter_timeout(&mut tag, patience).unwrap());
            let request = queue.enter_owned(tag).unwrap();
            let leaves = later(Box::new(|| drop(request)));
            drop(queue.freeze_timeout(patience).unwrap());
            let request = queue.enter_any_timeout(patience).unwrap();
            let leaves_too = later(Box::new(|| drop(request)));
            assert_eq!(queue.update_timeout(patience, |limits| limits.with_max(8)).unwrap().max, 8);
            let request = queue.enter_any().unwrap();
            let leaves_last = later(Box::new(|| drop(request)));
            drop(queue.enter_any_timeout(patience).unwrap());
            assert!(queue.shut_down_timeout(patience));
            for thread in [thaws, leaves, leaves_too, leaves_last] {
                thread.join().unwrap();
            }
        });
    }
}

/// A thread that tries again as long as no tag is free learns of the shutdown, even if no tag comes back.
#[test]
fn tries_without_a_tag_end_with_the_queue() {
    ends(|| {
        let (queue, _tags) = queue(1);
        let tried = AtomicBool::new(false);
        thread::scope(|threads| {
            let loops = threads.spawn(|| {
                loop {
                    match queue.try_enter_any().map(drop) {
                        Err(EnterError::NoTag) => tried.store(true, Ordering::SeqCst),
                        ended => break ended,
                    }
                }
            });
            while !tried.load(Ordering::SeqCst) {
                thread::yield_now();
            }
            queue.mark_dying();
            assert_eq!(loops.join().unwrap(), Err(EnterError::Dying));
        });
    });
}

/// The drop of an owned request, and of one that looked at a frozen queue, wake a thread that freezes as well.
#[test]
fn other_guards_wake_who_freezes() {
    ends(|| {
        let (queue, mut tags) = queue(3);
        let queue = std::sync::Arc::new(queue);
        let mut frozen_too = tags.pop().unwrap();
        for how in 0..3 {
            let request = queue.enter_owned(tags.pop().unwrap_or_else(|| queue.tag().unwrap())).unwrap();
            thread::scope(|threads| {
                let freezes = threads.spawn(|| drop(queue.freeze().unwrap()));
                until("it freezes", || queue.depth() == 1);
                let looks = queue.try_enter_frozen(&mut frozen_too).unwrap();
                if how == 0 {
                    drop(request);
                } else {
                    drop(request.leave());
                }
                thread::sleep(SOON);
                assert!(!freezes.is_finished());
                drop(looks);
            });
        }
    });
}

/// Entering goes on while others' refused tries come and go: each of them may be the one that finds the queue drained.
#[test]
fn refused_tries_tell_of_the_drain() {
    ends(|| {
        let (queue, mut tags) = queue(4);
        let over = AtomicBool::new(false);
        thread::scope(|threads| {
            for (number, tag) in tags.iter_mut().enumerate() {
                let (queue, over) = (&queue, &over);
                threads.spawn(move || {
                    while !over.load(Ordering::SeqCst) {
                        if number % 2 == 0 {
                            let _ = queue.try_enter(tag).map(drop);
                        } else {
                            let _ = queue.try_enter_frozen(tag).map(drop);
                        }
                    }
                });
            }
            for change in 0..3000 {
                queue.freeze().unwrap().set(LIMITS.with_max(1 + change % 64)).unwrap();
            }
            over.store(true, Ordering::SeqCst);
        });
        assert!(queue.remove().unwrap_err().value.depth() == 0);
    });
}

/// A thread that waits to enter is refused at once with a tag that has entered, or with another queue's tag.
#[test]
fn refusals_that_no_thaw_ends_come_at_once() {
    ends(|| {
        let ((here, mut tags), (there, _tags)) = (queue(1), queue(1));
        let (_frozen, _also) = (here.freeze().unwrap(), there.freeze().unwrap());
        let tag = &mut tags[0];
        assert_eq!(there.enter(tag).unwrap_err(), EnterError::OtherQueue);
        assert_eq!(block_on(there.enter_async(tag)).unwrap_err(), EnterError::OtherQueue);
        assert_eq!(here.try_enter(tag).unwrap_err(), EnterError::Frozen);
    });
    ends(|| {
        let (queue, mut tags) = queue(1);
        std::mem::forget(queue.enter(&mut tags[0]).unwrap());
        assert_eq!(queue.enter(&mut tags[0]).unwrap_err(), EnterError::StillEntered);
        assert_eq!(block_on(queue.enter_async(&mut tags[0])).unwrap_err(), EnterError::StillEntered);
    });
}
