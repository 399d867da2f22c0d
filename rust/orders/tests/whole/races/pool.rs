//! Requests with any tag, more than there are tags: each wait in line ends, and each tag is home at the end.
use super::race;
use crate::{EnterError, Limits, Queue};
use orders::turns::{block_on, waker};
use std::pin::pin;
use std::task::{Context, Poll};

fn one_tag() -> Queue {
    Queue::builder(Limits::of_hardware(64)).slots(1).tags(1).build().unwrap()
}

fn visits(queue: &Queue) {
    drop(queue.enter_any().unwrap());
}

fn visits_async(queue: &Queue) {
    drop(block_on(queue.enter_any_async()).unwrap());
}

/// Polled once, and dropped: in line, or as it was handed a tag, or with a request.
fn gives_up(queue: &Queue) {
    let mut entering = pin!(queue.enter_any_async());
    drop(entering.as_mut().poll(&mut Context::from_waker(&waker())));
}

fn changes(queue: &Queue) {
    drop(queue.freeze().unwrap());
}

fn changes_async(queue: &Queue) {
    drop(block_on(queue.freeze_async()).unwrap());
}

/// Each tag is home, and none is asked for in vain: the queue ends.
fn is_whole(queue: Queue) {
    assert_eq!(queue.depth(), 0);
    drop(queue.try_enter_any().expect("a tag is home"));
    queue.remove().unwrap();
}

#[test]
fn three_threads_and_one_tag() {
    race("three threads and one tag", 3, one_tag, &[visits, visits, visits], is_whole);
}

#[test]
fn a_thread_and_two_tasks_and_one_tag() {
    race("a thread and two tasks and one tag", 3, one_tag, &[visits, visits_async, visits_async], is_whole);
}

#[test]
fn two_threads_and_one_tag() {
    race("two threads and one tag", 6, one_tag, &[visits, visits], is_whole);
}

#[test]
fn one_gives_up_in_line() {
    race("one that gives up in line", 3, one_tag, &[visits, gives_up, visits_async], is_whole);
}

#[test]
fn two_give_up_in_line() {
    race("two that give up in line", 3, one_tag, &[gives_up, gives_up, visits], is_whole);
}

/// A tag that is kept comes home by its drop.
#[test]
fn a_tag_that_was_kept_comes_home() {
    fn keeps(queue: &Queue) {
        drop(queue.tag());
    }
    race("a tag that was kept", 3, one_tag, &[keeps, visits, visits_async], is_whole);
}

#[test]
fn a_line_beside_a_freeze() {
    race("a line beside a freeze", 3, one_tag, &[visits, visits_async, changes], is_whole);
}

#[test]
fn a_task_freezes_beside_a_request() {
    race("a task that freezes beside a request", 4, one_tag, &[visits, changes_async], is_whole);
}

#[test]
fn two_tasks_freeze_beside_a_request() {
    race("two tasks that freeze beside a request", 3, one_tag, &[visits, changes_async, changes_async], is_whole);
}

/// The device goes: each has entered, or is sent away, from the line and with a tag.
#[test]
fn the_device_goes_away_under_a_line() {
    fn enters(queue: &Queue) {
        assert!(queue.enter_any().map_or_else(|why| why == EnterError::Dying, |_| true));
    }
    fn enters_async(queue: &Queue) {
        assert!(block_on(queue.enter_any_async()).map_or_else(|why| why == EnterError::Dying, |_| true));
    }
    fn goes(queue: &Queue) {
        queue.freeze().unwrap().into_owned().mark_dying();
    }
    race("a device that goes away under a line", 3, one_tag, &[enters, enters_async, goes], |queue| {
        assert_eq!(queue.try_enter_any().unwrap_err(), EnterError::Dying);
        queue.remove().unwrap();
    });
}

/// The handle is dropped while a request ends elsewhere: the tag goes home or ends, and the queue with the last share.
#[test]
fn the_handle_is_dropped_beside_a_request() {
    type Parts = (std::sync::Mutex<Option<Queue>>, std::sync::Mutex<Option<crate::OwnedRequest>>);
    fn parts() -> Parts {
        let queue = one_tag();
        let request = queue.enter_any().unwrap();
        (std::sync::Mutex::new(Some(queue)), std::sync::Mutex::new(Some(request)))
    }
    fn drops_the_handle(parts: &Parts) {
        let queue = parts.0.lock().unwrap().take();
        drop(queue);
    }
    fn drops_the_request(parts: &Parts) {
        let request = parts.1.lock().unwrap().take();
        drop(request);
    }
    race("a handle that is dropped beside a request", 8, parts, &[drops_the_handle, drops_the_request], |_| ());
}

/// The handle is dropped beside a future that keeps the queue: the future enters, or learns that the queue is gone.
#[test]
fn the_handle_is_dropped_beside_a_future() {
    type Entering = std::pin::Pin<Box<dyn Future<Output = Result<crate::OwnedRequest, EnterError>> + Send>>;
    type Parts = (std::sync::Mutex<Option<Queue>>, std::sync::Mutex<Option<Entering>>);
    fn parts() -> Parts {
        let queue = one_tag();
        let entering: Entering = Box::pin(queue.enter_any_owned_async());
        (std::sync::Mutex::new(Some(queue)), std::sync::Mutex::new(Some(entering)))
    }
    fn drops_the_handle(parts: &Parts) {
        let queue = parts.0.lock().unwrap().take();
        drop(queue);
    }
    fn enters(parts: &Parts) {
        let entering = parts.1.lock().unwrap().take().unwrap();
        assert!(block_on(entering).map_or_else(|why| why == EnterError::Dying, |_| true));
    }
    race("a handle that is dropped beside a future", 8, parts, &[drops_the_handle, enters], |_| ());
}

/// Tries to remove a queue.
fn removes(place: &std::sync::Mutex<Option<Queue>>) {
    let queue = place.lock().unwrap().take().unwrap();
    if let Err(refused) = queue.remove() {
        *place.lock().unwrap() = Some(refused.value);
    }
}

/// Removes a queue, if it wasn't before.
fn is_removed(place: std::sync::Mutex<Option<Queue>>) {
    if let Some(queue) = place.into_inner().unwrap() {
        queue.remove().unwrap();
    }
}

/// The queue is removed as soon as its tag is home, beside the call that brings it.
#[test]
fn a_removal_beside_a_tag_that_comes_home() {
    type Parts = (std::sync::Mutex<Option<Queue>>, std::sync::Mutex<Option<crate::OwnedRequest>>);
    fn parts() -> Parts {
        let queue = one_tag();
        let request = queue.enter_any().unwrap();
        assert!(matches!(pin!(queue.enter_any_async()).poll(&mut Context::from_waker(&waker())), Poll::Pending));
        (std::sync::Mutex::new(Some(queue)), std::sync::Mutex::new(Some(request)))
    }
    fn drops_the_request(parts: &Parts) {
        let request = parts.1.lock().unwrap().take();
        drop(request);
    }
    let acts: [fn(&Parts); 2] = [|it| removes(&it.0), drops_the_request];
    race("a removal beside a tag that comes home", 8, parts, &acts, |it| is_removed(it.0));
}

/// The queue is removed as soon as a task that waited has given its tag up, beside the thaw that wakes the task: it waits for no waker.
#[test]
fn a_removal_beside_a_thaw_that_wakes() {
    type Place<T> = std::sync::Mutex<Option<T>>;
    type Entering = std::pin::Pin<Box<dyn Future<Output = Result<(), EnterError>> + Send>>;
    type Parts = (Place<Queue>, Place<crate::OwnedFrozen>, Place<Entering>);
    fn parts() -> Parts {
        let queue = one_tag();
        let (frozen, entering) = (queue.freeze().unwrap().into_owned(), queue.enter_owned_async(queue.tag().unwrap()));
        let entering: Entering = Box::pin(async { entering.await.map(drop).map_err(|refused| refused.reason) });
        (Place::new(Some(queue)), Place::new(Some(frozen)), Place::new(Some(entering)))
    }
    fn thaws(parts: &Parts) {
        let frozen = parts.1.lock().unwrap().take();
        drop(frozen);
    }
    fn gives_up(parts: &Parts) {
        let mut entering = parts.2.lock().unwrap().take().unwrap();
        let _polled = entering.as_mut().poll(&mut Context::from_waker(&waker()));
    }
    let acts: [fn(&Parts); 3] = [|it| removes(&it.0), thaws, gives_up];
    race("a removal beside a thaw that wakes", 5, parts, &acts, |it| is_removed(it.0));
}

/// The handle is dropped beside a request whose tag was asked for: its place isn't out afterwards, so the places are freed.
#[test]
fn the_handle_is_dropped_beside_a_request_that_is_asked_for() {
    struct Parts {
        queue: std::sync::Mutex<Option<Queue>>,
        request: std::sync::Mutex<Option<crate::OwnedRequest>>,
        shared: std::sync::Arc<crate::shared::Shared<()>>,
    }
    fn parts() -> Parts {
        let queue = one_tag();
        let shared = std::sync::Arc::clone(&queue.tag().unwrap().parts().shared);
        let request = queue.enter_any().unwrap();
        assert_eq!(queue.try_enter_any().unwrap_err(), EnterError::NoTag);
        Parts { queue: std::sync::Mutex::new(Some(queue)), request: std::sync::Mutex::new(Some(request)), shared }
    }
    fn drops_the_handle(parts: &Parts) {
        let queue = parts.queue.lock().unwrap().take();
        drop(queue);
    }
    fn drops_the_request(parts: &Parts) {
        let request = parts.request.lock().unwrap().take();
        drop(request);
    }
    fn is_freed(parts: Parts) {
        assert!(!parts.shared.places.all()[0].home.is_out());
    }
    race("a handle beside a tag that is asked for", 8, parts, &[drops_the_handle, drops_the_request], is_freed);
}
