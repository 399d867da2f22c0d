// A stand-in for the kit's std::thread, written by hand: tools/erase leaves it alone.
//! Threads that may borrow, and whose start may be refused.

use crate::erased::pointers::Arc;
use std::io::Result;
use std::panic::resume_unwind;
use std::sync::{Condvar, Mutex, PoisonError};
use std::thread::Builder;

pub use std::thread::{Scope, scope, sleep, yield_now};

/// The result of a thread, so far.
#[derive(Debug)]
enum Given<T> {
    Nothing,
    Value(T),
    /// It was joined, or it panicked.
    Gone,
}

/// The result of a thread, for the one that joins it. std's own way takes memory that can't be refused for each thread, too, but
/// this one is taken by the caller before the thread starts.
#[derive(Debug)]
struct Packet<T> {
    given: Mutex<Given<T>>,
    ended: Condvar,
}

impl<T> Packet<T> {
    fn give(&self, given: Given<T>) {
        *self.given.lock().unwrap_or_else(PoisonError::into_inner) = given;
        self.ended.notify_all();
    }
}

/// The thread's end of a packet: if it panics, the drop says so.
struct Giver<T>(Option<Arc<Packet<T>>>);

impl<T> Giver<T> {
    fn give(mut self, value: T) {
        if let Some(packet) = self.0.take() {
            packet.give(Given::Value(value));
        }
    }
}

impl<T> Drop for Giver<T> {
    fn drop(&mut self) {
        if let Some(packet) = self.0.take() {
            packet.give(Given::Gone);
        }
    }
}

/// A thread that was started.
#[derive(Debug)]
pub struct JoinHandle<T> {
    packet: Arc<Packet<T>>,
}

impl<T> JoinHandle<T> {
    /// Waits for the thread's value. Panics if the thread did.
    pub fn join(self) -> T {
        let mut given = self.packet.given.lock().unwrap_or_else(PoisonError::into_inner);
        while matches!(*given, Given::Nothing) {
            given = self.packet.ended.wait(given).unwrap_or_else(PoisonError::into_inner);
        }
        match std::mem::replace(&mut *given, Given::Gone) {
            Given::Value(value) => value,
            Given::Nothing | Given::Gone => panic!("a thread panicked"),
        }
    }
}

/// The start of a thread in a scope.
pub trait TrySpawn<'scope> {
    /// Starts a thread. Refused if memory or the thread is.
    fn try_spawn<F, T>(&'scope self, work: F) -> Result<JoinHandle<T>>
    where
        F: FnOnce() -> T + Send + 'scope,
        T: Send + 'scope;
}

impl<'scope> TrySpawn<'scope> for Scope<'scope, '_> {
    fn try_spawn<F, T>(&'scope self, work: F) -> Result<JoinHandle<T>>
    where
        F: FnOnce() -> T + Send + 'scope,
        T: Send + 'scope,
    {
        let packet = Arc::try_new(Packet { given: Mutex::new(Given::Nothing), ended: Condvar::new() })?;
        let giver = Giver(Some(packet.clone()));
        Builder::new().spawn_scoped(self, move || giver.give(work()))?;
        Ok(JoinHandle { packet })
    }
}

/// Runs both, the first in a thread of its own, and returns what they give.
pub fn join<A, B, F, G>(first: F, second: G) -> (A, B)
where
    F: FnOnce() -> A + Send,
    G: FnOnce() -> B + Send,
    A: Send,
    B: Send,
{
    scope(|scope| {
        let first = scope.spawn(first);
        let second = second();
        (first.join().unwrap_or_else(|why| resume_unwind(why)), second)
    })
}
