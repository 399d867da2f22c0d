//! The removal of a queue within a waker: by a task that its waker polls, on the thread that wakes it. Each such call ends.
use freeze_queue::{EnterError, Final, Queue, RemoveError, Tag};
use std::future::Future;
use std::mem;
use std::pin::Pin;
use std::sync::{Arc, Mutex};
use std::task::{Context, Poll, Wake, Waker};
use std::thread;

mod shared;
use shared::{LIMITS, Woken, ends, number_of};

/// A task that its waker polls.
struct Inline(Mutex<Option<Pin<Box<dyn Future<Output = ()> + Send>>>>);

impl Wake for Inline {
    fn wake(self: Arc<Self>) {
        let waker = Waker::from(Arc::clone(&self));
        let mut task = self.0.lock().unwrap();
        if task.as_mut().is_some_and(|task| task.as_mut().poll(&mut Context::from_waker(&waker)).is_ready()) {
            *task = None;
        }
    }
}

/// Polls a task for the first time.
fn start(task: impl Future<Output = ()> + Send + 'static) {
    Arc::new(Inline(Mutex::new(Some(Box::pin(task))))).wake();
}

/// A task that waits to enter with any tag, beside one that it may keep, and then removes its queue. Its answer comes here.
fn removes_once_woken(queue: Queue, kept: Option<Tag>) -> Arc<Mutex<Option<Final>>> {
    let removed = Arc::<Mutex<Option<Final>>>::default();
    let answer = Arc::clone(&removed);
    start(async move {
        drop((queue.enter_any_async().await, kept));
        *answer.lock().unwrap() = Some(queue.remove().unwrap());
    });
    assert_eq!(*removed.lock().unwrap(), None, "it waits");
    removed
}

fn one_tag() -> Queue {
    Queue::builder(LIMITS).slots(1).tags(1).build().unwrap()
}

/// The task that waits beside what the queue gave is woken as that is dropped.
fn wakes<T: 'static>(take: fn(&Queue) -> T) {
    ends(move || {
        let queue = one_tag();
        let held = take(&queue);
        let removed = removes_once_woken(queue, None);
        drop(held);
        assert!(removed.lock().unwrap().is_some());
    });
}

/// A tag comes home: the call that brings it wakes the first in line.
#[test]
fn a_tag_that_comes_home_wakes() {
    wakes(|queue| queue.enter_any().unwrap());
}

/// A freeze with a share of the queue thaws: the task that waits enters.
#[test]
fn a_thaw_wakes() {
    wakes(|queue| queue.freeze().unwrap().into_owned());
}

/// The device goes, by a freeze with a share of the queue: a task that waits with its tag is sent away, and one in line.
#[test]
fn the_end_of_a_device_wakes() {
    for is_in_line in [false, true] {
        ends(move || {
            let queue = one_tag();
            let frozen = queue.freeze().unwrap().into_owned();
            let kept = is_in_line.then(|| queue.tag().unwrap());
            let removed = removes_once_woken(queue, kept);
            frozen.mark_dying();
            assert!(removed.lock().unwrap().is_some());
        });
    }
}

/// A removal that is tried again and again, beside a thread that drops the last shares: it succeeds as soon as they are gone.
#[test]
fn a_removal_beside_the_last_shares() {
    ends(|| {
        for _ in 0..number_of("FREEZE_QUEUE_ROUNDS", 200).min(200) {
            let queue = one_tag();
            let (request, freezing) = (queue.enter_any().unwrap(), queue.begin_freeze().unwrap().into_owned());
            let drops = thread::spawn(move || drop((request, freezing)));
            let mut left = queue.remove();
            while let Err(refused) = left {
                assert!(matches!(refused.reason, RemoveError::TagsOut | RemoveError::Shared));
                left = refused.value.remove();
            }
            drops.join().unwrap();
            assert_eq!(left.unwrap().kills, 2);
        }
    });
}

/// A thaw that wakes more tasks than it takes from their seats at once. Each tries the removal: the others' tags are out, and the freeze
/// is there until the last seats were taken.
#[test]
fn a_thaw_wakes_many() {
    ends(|| {
        let queue = Queue::builder(LIMITS).slots(1).tags(1_023).build().unwrap();
        let frozen = queue.freeze().unwrap().into_owned();
        let enters = |_| Box::pin(queue.enter_owned_async(queue.tag().unwrap()));
        let entering: Vec<_> = (0..1_023).map(enters).collect();
        let (queue, answers) = (Arc::new(Mutex::new(Some(queue))), Arc::<Mutex<Vec<_>>>::default());
        for future in entering {
            let (queue, answers) = (Arc::clone(&queue), Arc::clone(&answers));
            start(async move {
                drop(future.await.unwrap());
                let whole = queue.lock().unwrap().take().unwrap();
                let answer = whole.remove().map_err(|refused| {
                    *queue.lock().unwrap() = Some(refused.value);
                    refused.reason
                });
                answers.lock().unwrap().push(answer.map(drop));
            });
        }
        drop(frozen);
        let answers = answers.lock().unwrap();
        assert_eq!((answers.len(), answers[0], answers[1_022]), (1_023, Err(RemoveError::Shared), Ok(())));
        assert!(answers[..1_022].iter().all(Result::is_err));
    });
}

/// A future that is polled for the first time after its queue was dropped learns that the queue is gone, whether a tag is out or not.
#[test]
fn a_future_outlives_its_queue() {
    for is_out in [false, true] {
        let value = Arc::new(());
        let queue = Queue::builder(LIMITS).slots(1).tags(2).value(Arc::clone(&value)).build().unwrap();
        let request = is_out.then(|| queue.enter_any().unwrap());
        let mut entering = [Box::pin(queue.enter_any_owned_async()), Box::pin(queue.enter_any_owned_async())];
        drop(queue);
        for future in &mut entering {
            let polled = future.as_mut().poll(&mut Context::from_waker(Waker::noop()));
            assert!(matches!(polled, Poll::Ready(Err(EnterError::Dying))));
        }
        drop((request, entering));
        assert_eq!(Arc::strong_count(&value), 1, "the queue has ended");
    }
}

/// A future in line is woken when its queue is dropped, and then learns that the queue is gone.
#[test]
fn a_line_is_woken_as_its_queue_is_dropped() {
    let queue = one_tag();
    let request = queue.enter_any().unwrap();
    let woken = Arc::<Woken>::default();
    let mut in_line = Box::pin(queue.enter_any_owned_async());
    let waker = Waker::from(Arc::clone(&woken));
    assert!(in_line.as_mut().poll(&mut Context::from_waker(&waker)).is_pending());
    drop(queue);
    assert_eq!(woken.times(), 1);
    let polled = in_line.as_mut().poll(&mut Context::from_waker(&waker));
    assert!(matches!(polled, Poll::Ready(Err(EnterError::Dying))));
    drop(request);
}

/// A future with a share of the queue holds a removal up until it is dropped: before a poll, and as it was sent away.
#[test]
fn a_future_has_a_share() {
    let queue = one_tag();
    let unpolled = queue.enter_any_owned_async();
    let refused = queue.remove().unwrap_err();
    assert_eq!(refused.reason, RemoveError::Shared);
    drop(unpolled);
    let queue = refused.value;
    let request = queue.enter_any().unwrap();
    let mut in_line = Box::pin(queue.enter_any_owned_async());
    assert!(in_line.as_mut().poll(&mut Context::from_waker(Waker::noop())).is_pending());
    queue.mark_dying();
    drop(request);
    let refused = queue.remove().unwrap_err();
    assert_eq!(refused.reason, RemoveError::Shared);
    drop(in_line);
    assert_eq!(refused.value.remove().unwrap().kills, 1);
}

/// A tag that was handed to a forgotten future ends with its queue, and the value with them.
#[test]
fn a_tag_of_a_forgotten_future_ends() {
    let value = Arc::new(());
    let queue = Queue::builder(LIMITS).slots(1).tags(1).value(Arc::clone(&value)).build().unwrap();
    let request = queue.enter_any().unwrap();
    let mut waits = Box::pin(queue.enter_any_async());
    assert!(waits.as_mut().poll(&mut Context::from_waker(Waker::noop())).is_pending());
    drop(request);
    mem::forget(waits);
    drop(queue);
    assert_eq!(Arc::strong_count(&value), 1);
}
