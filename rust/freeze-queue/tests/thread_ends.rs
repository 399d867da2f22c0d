//! What a thread keeps in its locals until it ends: requests leave then and freezes thaw, and a destructor may call the queue.
use freeze_queue::{EnterError, OwnedFrozen, OwnedRequest, Queue};
use std::cell::RefCell;
use std::sync::{Arc, mpsc};
use std::thread;
use std::time::Duration;

mod shared;
use shared::{ends, queue};

thread_local! {
    static REQUEST: RefCell<Option<OwnedRequest>> = const { RefCell::new(None) };
    static FROZEN: RefCell<Option<OwnedFrozen>> = const { RefCell::new(None) };
    static CALLS: RefCell<Option<Calls>> = const { RefCell::new(None) };
}

#[test]
fn a_request_leaves() {
    let queue = queue(2, 1);
    let request = queue.enter_any().unwrap();
    thread::spawn(|| REQUEST.set(Some(request))).join().unwrap();
    assert!(queue.try_freeze().is_ok() && queue.try_enter_any().is_ok());
    queue.remove().unwrap();
}

#[test]
fn a_freeze_thaws() {
    let queue = queue(2, 1);
    let frozen = queue.freeze().unwrap().into_owned();
    thread::spawn(|| FROZEN.set(Some(frozen))).join().unwrap();
    assert_eq!(queue.depth(), 0);
    queue.remove().unwrap();
}

/// Calls the queue in its destructor, and says by its channel that all ended.
struct Calls(Arc<Queue>, mpsc::Sender<()>);

impl Drop for Calls {
    fn drop(&mut self) {
        let Calls(queue, ended) = self;
        let mut tag = queue.tag().unwrap();
        queue.watch(true);
        drop(queue.enter(&mut tag).unwrap());
        drop(queue.freeze().unwrap());
        let all: Vec<_> = std::iter::from_fn(|| queue.try_enter_any().ok()).collect();
        assert_eq!(all.len(), 2);
        assert_eq!(queue.enter_any_timeout(Duration::from_millis(1)).unwrap_err(), EnterError::TimedOut);
        let leaves = thread::spawn(move || drop(all));
        drop(queue.enter_any().unwrap()); // waits in line
        leaves.join().unwrap();
        assert_eq!(queue.update(|limits| limits.with_max(7)).unwrap().max, 7);
        ended.send(()).unwrap();
    }
}

/// A destructor of a thread's locals enters, waits in line, freezes and updates, before and after the thread gave its number back.
#[test]
fn a_destructor_calls() {
    ends(|| {
        let queue = Arc::new(queue(2, 3));
        for is_first in [false, true] {
            let (sent, ended) = mpsc::channel();
            let its = Arc::clone(&queue);
            let ends = thread::spawn(move || {
                let request = is_first.then(|| its.enter_any().unwrap()); // which gives the thread its number
                CALLS.set(Some(Calls(Arc::clone(&its), sent)));
                drop(request);
                drop(its.enter_any().unwrap());
            });
            ends.join().unwrap();
            ended.recv().unwrap();
        }
        Arc::into_inner(queue).unwrap().remove().unwrap();
    });
}
