//! Threads that take turns: every order of their steps, for code whose values can't be written down.
//!
//! [`Orders`](crate::Orders) runs an actor again from its start, so all that a lock guards has to be saved and restored. A queue of the
//! public crates has wakers, futures and values of any type behind its locks. Here each actor is a thread, and one runs at a time.
//! Before each step on a lock, a condition, an atomic number or a parked thread, the thread that runs chooses the one that goes on. A run of all
//! actors is one order. The next run makes the last choice that has an untried alternative in another way, until none has.
//!
//! [`Turns::switches`] bounds the switches away from a thread that could go on; a switch that a wait needs is free. A notification of one
//! sleeper is a choice of the sleeper, and a wait with a deadline may end at each moment, or, as its caller says, once no other can go on.
//!
//! A relaxed or release store is seen by other threads at any later moment, in any order across words; a release store after the stores before
//! it. A step that stores otherwise, a lock and [`heavy_fence`] have them seen: `turns/buffers.rs` has the rules.
//!
//! Not tried: a load that is made before an earlier one or before an earlier store of its own thread, a sleeper that wakes with no call,
//! and refused memory.

mod atomic;
mod board;
mod buffers;
mod meetings;
mod noted;
mod state;
mod sync;
mod thread;

pub use atomic::{AtomicBool, AtomicU32, AtomicU64, AtomicUsize};
pub use noted::Noted;
pub use sync::{Condvar, Mutex, MutexGuard, WaitTimeoutResult};
pub use thread::{Thread, block_on, current, heavy_fence, hint, park, pause, waker};

use board::Board;
use state::End;
use std::fmt::Debug;
use std::panic::{AssertUnwindSafe, catch_unwind};
use std::sync::{Arc, Mutex as StdMutex, PoisonError};

/// Some actors on shared parts.
pub trait Play: Send + Sync + 'static {
    /// What the actors share.
    type Parts: Send + Sync + 'static;

    /// How many actors there are.
    fn actors(&self) -> usize;

    /// Makes the parts, before each order.
    fn parts(&self) -> Self::Parts;

    /// All that an actor does. It depends on nothing but the parts and its steps.
    fn act(&self, parts: &Self::Parts, actor: usize);

    /// Checks the parts at the end of each order.
    fn end(&self, parts: Self::Parts);
}

/// All orders of a play, with a bound.
#[derive(Clone, Copy, Debug)]
pub struct Turns {
    switches: usize,
    skips_equal: bool,
}

/// What was gone through.
#[derive(Clone, Copy, Debug, PartialEq, Eq)]
pub struct Played {
    /// The orders.
    pub orders: u64,
    /// The steps of all of them.
    pub steps: u64,
}

/// A fault of a play, with the steps that lead to it.
#[derive(Debug)]
pub enum Failed {
    /// Not all actors have ended, and none can go on: a lost wake, or actors that wait for one another.
    Stuck(Vec<String>),
    /// An actor panicked, or the check at the end.
    Panicked(String, Vec<String>),
    /// An order has more steps than any that ends.
    Endless(Vec<String>),
}

struct Stage<P: Play> {
    play: P,
    board: Arc<Board>,
    parts: StdMutex<Option<Arc<P::Parts>>>,
}

impl<P: Play> Stage<P> {
    fn set(&self, parts: Option<Arc<P::Parts>>) -> Option<Arc<P::Parts>> {
        std::mem::replace(&mut *self.parts.lock().unwrap_or_else(PoisonError::into_inner), parts)
    }

    fn parts(&self) -> Arc<P::Parts> {
        self.parts.lock().unwrap_or_else(PoisonError::into_inner).clone().expect("the parts of this order")
    }

    /// Plays an actor in each order, until there is none.
    fn plays(&self, actor: usize) {
        while self.board.begins(actor) {
            let parts = self.parts();
            let ended = thread::as_actor(&self.board, actor, || {
                catch_unwind(AssertUnwindSafe(|| self.play.act(&parts, actor)))
            });
            drop(parts);
            self.board.ends(actor, ended.err().map(|why| text_of(why.as_ref())));
        }
    }
}

fn text_of(why: &(dyn std::any::Any + Send)) -> String {
    let text = why.downcast_ref::<String>().map(String::as_str).or_else(|| why.downcast_ref::<&str>().copied());
    text.unwrap_or("a panic with no text").to_owned()
}

impl Turns {
    /// Orders with so many switches at most away from an actor that could go on.
    #[must_use]
    pub fn switches(most: usize) -> Turns {
        Turns { switches: most, skips_equal: false }
    }

    /// Skips orders that differ in nothing from one that is gone through. All that the actors share has to be of this module then: what is there for
    /// the check alone is [`Noted`].
    #[must_use]
    pub fn skip_equal(self) -> Turns {
        Turns { skips_equal: true, ..self }
    }

    /// Goes through them. At a fault the threads of that order are left where they are.
    ///
    /// # Errors
    ///
    /// [`Failed`] has each; the first that is met.
    ///
    /// # Panics
    ///
    /// If the play isn't the same in each run of one order.
    pub fn play<P: Play>(self, play: P) -> Result<Played, Failed> {
        let actors = play.actors();
        let board = Arc::new(Board::new(actors, self.switches, self.skips_equal));
        let stage = Arc::new(Stage { play, board, parts: StdMutex::new(None) });
        let start = |actor| {
            let stage = Arc::clone(&stage);
            std::thread::spawn(move || stage.plays(actor))
        };
        let threads: Vec<_> = (0..actors).map(start).collect();
        let mut played = Played { orders: 0, steps: 0 };
        loop {
            stage.set(Some(Arc::new(stage.play.parts())));
            let end = stage.board.direct();
            played.orders += 1;
            played.steps += stage.board.steps();
            match end {
                End::Ended => {}
                End::Stuck => return Err(Failed::Stuck(stage.board.schedule())),
                End::Endless => return Err(Failed::Endless(stage.board.schedule())),
                End::Panicked(why) => return Err(Failed::Panicked(why, stage.board.schedule())),
            }
            let parts = stage.set(None).and_then(Arc::into_inner).expect("the actors have let go of the parts");
            let checked = catch_unwind(AssertUnwindSafe(|| stage.play.end(parts)));
            if let Err(why) = checked {
                return Err(Failed::Panicked(text_of(why.as_ref()), stage.board.schedule()));
            }
            if !stage.board.next_order() {
                break;
            }
        }
        stage.board.close();
        for thread in threads {
            drop(thread.join());
        }
        Ok(played)
    }
}
