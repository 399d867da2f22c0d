//! Whom an update lets in before it freezes, and what ends its wait for them.

use crate::common::{PATIENCE, Woken, on_another_thread, until};
use crate::errors::UpdateError;
use crate::limits::Limits;
use crate::queue::Queue;
use crate::shared::Shared;
use crate::sync::tells_its_sleep;
use std::future::Future;
use std::pin::Pin;
use std::sync::{Arc, Mutex, mpsc};
use std::task::{Context, Poll, Waker};
use std::thread;

type Update<'q> = Pin<Box<dyn Future<Output = Result<Limits, UpdateError>> + 'q>>;

/// A queue, and its part at which the tests note threads that wait to enter.
fn queue() -> (Queue, Arc<Shared<()>>) {
    let queue = Queue::builder(Limits::of_hardware(8)).slots(2).tags(1).build().unwrap();
    let shared = Arc::clone(&queue.tag().unwrap().parts().shared);
    (queue, shared)
}

fn update(queue: &Queue) -> Update<'_> {
    Box::pin(queue.update_async(|limits| limits))
}

fn polled(update: &mut Update<'_>, woken: &Arc<Woken>) -> Poll<Result<Limits, UpdateError>> {
    update.as_mut().poll(&mut Context::from_waker(&Waker::from(Arc::clone(woken))))
}

/// After each of thousands of thaws an update waits for the threads that waited at the thaw, and for no other. The last of them wakes it.
#[test]
fn an_update_lets_in_who_waited_at_the_thaw() {
    let (queue, shared) = queue();
    for round in 0..3_000 {
        let waited: Vec<_> = (0..=round % 3).map(|_| shared.waits.begin_to_wait()).collect();
        drop(queue.freeze().unwrap());
        let late = shared.waits.begin_to_wait();
        let (mut update, woken) = (update(&queue), Arc::new(Woken::default()));
        assert!(polled(&mut update, &woken).is_pending(), "round {round}");
        drop(late);
        for thread in waited {
            assert_eq!(woken.times(), 0, "round {round}");
            assert!(polled(&mut update, &woken).is_pending(), "round {round}");
            drop(thread);
        }
        assert_eq!(woken.times(), 1, "round {round}");
        assert!(polled(&mut update, &woken).is_ready(), "round {round}");
    }
}

/// A thread that waits over several thaws is let in once.
#[test]
fn an_update_lets_in_once_who_waited_at_each_thaw() {
    let (queue, shared) = queue();
    for thaws in 1..6 {
        let waits = shared.waits.begin_to_wait();
        for _ in 0..thaws {
            drop(queue.freeze().unwrap());
        }
        let (mut update, woken) = (update(&queue), Arc::new(Woken::default()));
        assert!(polled(&mut update, &woken).is_pending(), "{thaws} thaws");
        drop(waits);
        assert_eq!(woken.times(), 1, "{thaws} thaws");
        assert!(polled(&mut update, &woken).is_ready(), "{thaws} thaws");
    }
}

/// Under a freeze an update lets nobody in, since nobody can enter.
#[test]
fn an_update_under_a_freeze_waits_for_nobody() {
    let (queue, shared) = queue();
    for _ in 0..3 {
        let waits = shared.waits.begin_to_wait();
        drop(queue.freeze().unwrap());
        let frozen = queue.freeze().unwrap();
        assert!(polled(&mut update(&queue), &Arc::default()).is_ready());
        queue.update(|limits| limits).unwrap();
        drop((frozen, waits));
    }
}

/// A freeze wakes an update that waits for others to enter, as a task and as a thread that sleeps. The update goes on under that freeze.
#[test]
fn a_freeze_wakes_an_update_that_lets_in() {
    let (queue, shared) = queue();
    for _ in 0..3 {
        let waits = shared.waits.begin_to_wait();
        drop(queue.freeze().unwrap());
        let (mut update, woken) = (update(&queue), Arc::new(Woken::default()));
        assert!(polled(&mut update, &woken).is_pending());
        let frozen = queue.freeze().unwrap();
        assert_eq!(woken.times(), 1);
        assert!(polled(&mut update, &woken).is_ready());
        drop(frozen);
        let (sleeps, is_asleep) = mpsc::channel();
        thread::scope(|scope| {
            let updates = scope.spawn(|| {
                tells_its_sleep(sleeps);
                queue.update(|limits| limits).unwrap()
            });
            is_asleep.recv().unwrap();
            let frozen = queue.freeze().unwrap();
            until("the update goes on", || updates.is_finished());
            drop(frozen);
        });
        drop(waits);
    }
}

/// How many limits are set by others, at most, before an update has set its own.
const MOST_SETS: u32 = 4;

/// An update whose closure is called again, since another freeze set limits meanwhile, lets in those who waited at the thaw of that freeze,
/// each time. It does so as a task...
#[test]
fn a_task_that_updates_again_lets_in_again() {
    for sets in 0..=MOST_SETS {
        let (queue, shared) = queue();
        let (waits, mut calls, woken) = (Mutex::new(None), 0, Arc::new(Woken::default()));
        let mut update: Update<'_> = Box::pin(queue.update_async(|limits| {
            calls += 1;
            if calls <= sets {
                *waits.lock().unwrap() = Some(shared.waits.begin_to_wait());
                on_another_thread(|| queue.freeze().unwrap().set(limits.with_chunk(calls)).unwrap());
            }
            limits.with_max(5)
        }));
        for set in 1..=sets {
            assert!(polled(&mut update, &woken).is_pending(), "{set} of {sets}");
            assert_eq!(queue.limits().chunk, set);
            drop(waits.lock().unwrap().take());
            assert_eq!(woken.times(), u64::from(2 * set - 1), "of {sets}");
            // It lets other tasks go before it calls its closure again.
            assert!(polled(&mut update, &woken).is_pending(), "{set} of {sets}");
            assert_eq!((woken.times(), queue.limits().chunk, queue.depth()), (u64::from(2 * set), set, 0));
        }
        let wanted = Limits::of_hardware(8).with_max(5).with_chunk(sets);
        assert_eq!(polled(&mut update, &woken), Poll::Ready(Ok(wanted)));
        drop(update);
        assert_eq!(calls, sets + 1);
    }
}

/// ...and as a thread, which sleeps until the last of them has entered.
#[test]
fn a_thread_that_updates_again_lets_in_again() {
    for (sets, is_timed) in (0..=MOST_SETS).flat_map(|sets| [(sets, false), (sets, true)]) {
        let ((queue, shared), (sleeps, is_asleep)) = (queue(), mpsc::channel());
        let (queue, waits) = (&queue, &Mutex::new(None));
        let shared = &shared;
        let mut calls = 0;
        let change = move |limits: Limits| {
            calls += 1;
            if calls <= sets {
                *waits.lock().unwrap() = Some(shared.waits.begin_to_wait());
                on_another_thread(|| queue.freeze().unwrap().set(limits.with_chunk(calls)).unwrap());
                tells_its_sleep(sleeps.clone());
            }
            limits.with_max(5)
        };
        let set = thread::scope(|scope| {
            let updates = scope
                .spawn(move || if is_timed { queue.update_timeout(PATIENCE, change) } else { queue.update(change) });
            for set in 1..=sets {
                is_asleep.recv().expect("the update lets nobody in");
                assert_eq!((queue.limits().chunk, queue.depth()), (set, 0));
                drop(waits.lock().unwrap().take());
            }
            updates.join().unwrap()
        });
        assert_eq!(set, Ok(Limits::of_hardware(8).with_max(5).with_chunk(sets)));
    }
}
