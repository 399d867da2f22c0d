//! A call with a timeout has one deadline. Each sleep of the call may last as long as its sleeps before have left of that time, whether it is
//! woken in vain or waits for the next thing.

use crate::common::PATIENCE;
use crate::errors::{EnterError, FreezeError, UpdateError};
use crate::limits::Limits;
use crate::queue::Queue;
use crate::sync::{Means, Timed, tells_its_sleep, timed_sleeps, wake_in_vain};
use std::sync::{Arc, mpsc};
use std::task::{Context, Waker};
use std::thread;
use std::time::Duration;

/// How often the first sleeps of a call are woken in vain.
const IN_VAIN: u64 = 5;

fn queue() -> Queue {
    Queue::builder(Limits::of_hardware(8)).slots(2).tags(2).reserved(1).build().unwrap()
}

/// Makes a call on a thread whose first sleeps end soon. Once it sleeps on, the queue is changed. Returns the sleeps of the call.
fn sleeps_of(call: impl FnOnce() + Send, change: impl FnOnce()) -> Vec<Timed> {
    let (sleeps, is_asleep) = mpsc::channel();
    thread::scope(|scope| {
        let calls = scope.spawn(|| {
            wake_in_vain(IN_VAIN);
            tells_its_sleep(sleeps);
            call();
            timed_sleeps()
        });
        let _ = is_asleep.recv(); // fails if the call ends before
        change();
        calls.join().unwrap()
    })
}

/// Calls with twice the time again and again, until a call has slept by each of these means. No sleep of any call may last longer than what
/// the sleep before has left.
fn has_one_deadline(means: &[Means], sleeps_with: impl Fn(Duration) -> Vec<Timed>) {
    let mut patience = Duration::from_millis(30);
    loop {
        let all = sleeps_with(patience);
        assert!(all.first().is_none_or(|first| first.left <= patience), "{patience:?}: {all:?}");
        for (one, next) in all.iter().zip(&all[1.min(all.len())..]) {
            assert!(next.left <= one.left.saturating_sub(one.lasted), "{patience:?}: {all:?}");
        }
        if means.iter().all(|means| all.iter().any(|sleep| sleep.means == *means)) {
            return;
        }
        patience *= 2;
        assert!(patience < PATIENCE, "it doesn't sleep by {means:?}");
    }
}

/// A request with a tag of its own waits for the thaw.
#[test]
fn entering() {
    let queue = queue();
    let _frozen = queue.freeze().unwrap();
    has_one_deadline(&[Means::Condition], |patience| {
        let mut tag = queue.tag().unwrap();
        sleeps_of(|| assert_eq!(queue.enter_timeout(&mut tag, patience).unwrap_err(), EnterError::TimedOut), || ())
    });
}

/// A request waits for a tag, and then for the thaw.
#[test]
fn entering_with_any_tag() {
    has_one_deadline(&[Means::Park, Means::Condition], |patience| {
        let queue = queue();
        let request = queue.enter_any().unwrap();
        let mut freezing = None;
        let call = || assert_eq!(queue.enter_any_timeout(patience).unwrap_err(), EnterError::TimedOut);
        sleeps_of(call, || {
            freezing = Some(queue.begin_freeze().unwrap());
            drop(request);
        })
    });
}

/// A freeze, a freeze that was begun, and a shutdown wait for the drain.
#[test]
fn draining() {
    let calls: [fn(&Queue, Duration); 3] = [
        |queue, patience| assert_eq!(queue.freeze_timeout(patience).unwrap_err(), FreezeError::TimedOut),
        |queue, patience| assert!(queue.begin_freeze().unwrap().wait_timeout(patience).is_err()),
        |queue, patience| assert!(!queue.shut_down_timeout(patience)),
    ];
    for call in calls {
        let queue = queue();
        let _request = queue.enter_any().unwrap();
        has_one_deadline(&[Means::Condition], |patience| sleeps_of(|| call(&queue, patience), || ()));
    }
}

/// An update waits for its turn, and then for the drain.
#[test]
fn updating() {
    has_one_deadline(&[Means::Park, Means::Condition], |patience| {
        let queue = queue();
        let _request = queue.enter_any().unwrap();
        let mut has_the_turn = Box::pin(queue.update_async(|limits| limits));
        assert!(has_the_turn.as_mut().poll(&mut Context::from_waker(Waker::noop())).is_pending());
        let call = || assert_eq!(queue.update_timeout(patience, |limits| limits).unwrap_err(), UpdateError::TimedOut);
        sleeps_of(call, || drop(has_the_turn))
    });
}

/// An update waits for a thread to enter that waited at the last thaw, and then for the drain.
#[test]
fn updating_behind_a_thread() {
    has_one_deadline(&[Means::Condition], |patience| {
        let queue = queue();
        let _request = queue.enter_any().unwrap();
        let shared = Arc::clone(&queue.tag().unwrap().parts().shared);
        let _waits = shared.waits.begin_to_wait();
        drop(queue.begin_freeze().unwrap());
        let call = || assert_eq!(queue.update_timeout(patience, |limits| limits).unwrap_err(), UpdateError::TimedOut);
        sleeps_of(call, || ())
    });
}
