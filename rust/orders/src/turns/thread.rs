//! The thread of an actor: parked, woken, and by a future's waker.

use super::board::Board;
use std::cell::RefCell;
use std::future::Future;
use std::panic::Location;
use std::pin::pin;
use std::sync::Arc;
use std::task::{Context, Poll, Wake, Waker};

thread_local! {
    static ACTOR: RefCell<Option<(Arc<Board>, usize)>> = const { RefCell::new(None) };
}

/// Runs an actor on this thread.
pub(crate) fn as_actor<T>(board: &Arc<Board>, actor: usize, act: impl FnOnce() -> T) -> T {
    ACTOR.set(Some((Arc::clone(board), actor)));
    let done = act();
    ACTOR.set(None);
    done
}

/// A call for the actor of this thread. On a thread that has none, which makes parts or checks them, a step is made at once.
pub(crate) fn of_actor<T>(call: impl FnOnce(&Board, usize) -> T) -> Option<T> {
    ACTOR.with_borrow(|actor| actor.as_ref().map(|(board, actor)| call(board, *actor)))
}

/// Stores of all actors before this call reach memory before it returns: what `membarrier` does for the threads of a process.
#[track_caller]
pub fn heavy_fence() {
    let at = Location::caller();
    of_actor(|board, actor| board.fences(actor, at));
}

/// Another actor may go on here.
#[track_caller]
pub fn pause() {
    let at = Location::caller();
    of_actor(|board, actor| board.step(actor, "pause", at));
}

/// The thread of an actor. One on which no actor is has the number behind all.
#[derive(Clone, Copy, Debug)]
pub struct Thread(usize);

impl Thread {
    /// Has its next or present park end.
    #[track_caller]
    pub fn unpark(&self) {
        let at = Location::caller();
        of_actor(|board, actor| board.unparks(actor, self.0, at));
    }
}

/// The thread that calls.
#[must_use]
pub fn current() -> Thread {
    Thread(of_actor(|_, actor| actor).unwrap_or(usize::MAX))
}

/// The number of the thread for slots, and where its search for a tag begins: its actor's.
#[must_use]
pub fn hint() -> (u32, usize) {
    let actor = of_actor(|_, actor| actor).unwrap_or(0);
    (u32::try_from(actor).unwrap_or(0), actor)
}

/// Waits until the thread is unparked, if it wasn't before.
#[track_caller]
pub fn park() {
    let at = Location::caller();
    of_actor(|board, actor| board.parks(actor, at));
}

struct Unparks(Thread);

impl Wake for Unparks {
    fn wake(self: Arc<Self>) {
        self.0.unpark();
    }
}

/// A waker that unparks the thread that calls.
#[must_use]
pub fn waker() -> Waker {
    Waker::from(Arc::new(Unparks(current())))
}

/// Polls a future to its end; the thread is parked between.
pub fn block_on<F: Future>(future: F) -> F::Output {
    let (mut future, waker) = (pin!(future), waker());
    loop {
        match future.as_mut().poll(&mut Context::from_waker(&waker)) {
            Poll::Ready(done) => return done,
            Poll::Pending => park(),
        }
    }
}
