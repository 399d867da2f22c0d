// A stand-in for the kit's crossbeam_utils, written by hand: tools/erase leaves it alone.
//! Threads that sleep until an event, or until they are given a token.

use crate::erased::fallible::AllocError;
use crate::erased::pointers::Arc;
use crate::erased::sync::{AtomicUsize, Condvar, Mutex, MutexGuard};
use std::cell::Cell;
use std::marker::PhantomData;
use std::sync::atomic::Ordering::SeqCst;

/// The threads that wait, in one round. A call that wakes all ends the round.
#[derive(Clone, Debug)]
struct Round {
    number: u64,
    /// Waits of this round that no call has woken.
    waiting: usize,
    /// Wakes of this round that no wait has used yet.
    woken: usize,
}

/// An event that threads wait for. A thread announces its wait, looks for what it waits for, and only then sleeps: so
/// either its look sees the event, or the thread that brings the event about sees the announcement and wakes it.
#[derive(Debug)]
pub struct EventCount {
    /// Waits that are announced and haven't ended. It is changed under the lock, and read without it.
    announced: AtomicUsize,
    round: Mutex<Round>,
    wakes: Condvar,
}

impl EventCount {
    /// No thread waits.
    pub const fn new() -> EventCount {
        EventCount {
            announced: AtomicUsize::new(0),
            round: Mutex::new(Round { number: 0, waiting: 0, woken: 0 }),
            wakes: Condvar::new(),
        }
    }

    fn round(&self) -> MutexGuard<'_, Round> {
        self.round.lock()
    }

    /// Announces a wait.
    pub fn prepare_wait(&self) -> Key<'_> {
        let mut round = self.round();
        round.waiting += 1;
        self.announced.fetch_add(1, SeqCst);
        Key { events: self, round: round.number, ended: false }
    }

    /// Wakes one thread, if one waits.
    #[inline]
    pub fn notify_one(&self) {
        if self.announced.load(SeqCst) > 0 {
            self.wake_one();
        }
    }

    fn wake_one(&self) {
        let mut round = self.round();
        if round.waiting == 0 {
            return;
        }
        round.waiting -= 1;
        round.woken += 1;
        // The thread that wakes wants the lock: where it runs at once, on the processor of this one, it would sleep for it again.
        drop(round);
        self.wakes.notify_one();
    }

    /// Wakes all threads that wait.
    #[inline]
    pub fn notify_all(&self) {
        if self.announced.load(SeqCst) > 0 {
            self.wake_all();
        }
    }

    fn wake_all(&self) {
        let mut round = self.round();
        round.number += 1;
        round.waiting = 0;
        round.woken = 0;
        drop(round);
        self.wakes.notify_all();
    }
}

/// A wait that is announced. If it is dropped, it ends, and another thread gets the wake that it would have used.
#[derive(Debug)]
pub struct Key<'e> {
    events: &'e EventCount,
    round: u64,
    ended: bool,
}

impl Key<'_> {
    /// Sleeps until a call wakes this wait.
    pub fn wait(mut self) {
        let mut round = self.events.round();
        while round.number == self.round && round.woken == 0 {
            round = self.events.wakes.wait(round);
        }
        if round.number == self.round {
            round.woken -= 1;
        }
        self.events.announced.fetch_sub(1, SeqCst);
        self.ended = true;
    }
}

impl Drop for Key<'_> {
    fn drop(&mut self) {
        if self.ended {
            return;
        }
        let mut round = self.events.round();
        // While a wait of this round isn't woken, this one is: the wakes stay for the others. Else all of them are, and one
        // of the wakes is this one's.
        if round.number == self.round {
            if round.waiting > 0 {
                round.waiting -= 1;
            } else {
                round.woken -= 1;
            }
        }
        self.events.announced.fetch_sub(1, SeqCst);
    }
}

#[derive(Debug)]
struct Token {
    is_there: Mutex<bool>,
    given: Condvar,
}

/// Sleeps until another thread gives it a token. It isn't `Sync`, so one thread at a time parks.
#[derive(Debug)]
pub struct Parker {
    unparker: Unparker,
    of_one_thread: PhantomData<Cell<()>>,
}

impl Parker {
    /// The token is missing.
    pub fn try_new() -> Result<Parker, AllocError> {
        let token = Arc::try_new(Token { is_there: Mutex::new(false), given: Condvar::new() })?;
        Ok(Parker { unparker: Unparker { token }, of_one_thread: PhantomData })
    }

    /// What gives this parker its token.
    pub fn unparker(&self) -> &Unparker {
        &self.unparker
    }

    /// Sleeps until the token is there, and takes it.
    pub fn park(&self) {
        let Token { is_there, given } = &*self.unparker.token;
        let mut is_there = is_there.lock();
        while !*is_there {
            is_there = given.wait(is_there);
        }
        *is_there = false;
    }
}

/// Gives a parker its token.
#[derive(Clone, Debug)]
pub struct Unparker {
    token: Arc<Token>,
}

impl Unparker {
    /// Gives the token, unless it is there already, and wakes the thread that sleeps.
    pub fn unpark(&self) {
        *self.token.is_there.lock() = true;
        self.token.given.notify_one();
    }
}
