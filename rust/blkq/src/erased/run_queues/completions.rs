// Erased from crates/run_queues/src/completions.rt by tools/erase: edit that file.
//! The queue of completions.

use crate::erased::crossbeam_queue::Pass;
use crate::erased::fallible::AllocError;
use crate::erased::run_queues::numbered::Numbered;
use crate::erased::run_queues::ruled_queue::RuledQueue;

type Completions<T> = RuledQueue<T>;

type Seat<T> = Pass<T>;

/// A queue of completions, which one thread collects.
pub struct CompletionQueue<T: Numbered> {
    line: Completions<T>,
}

/// The right to collect completions, and to give tokens that report them.
pub struct Collector<T: Numbered> {
    seat: Seat<T>,
}

/// The right to report one completion, once. It goes with its request to the thread that does it.
pub struct CompletionToken<T: Numbered> {
    seat: Seat<T>,
    number: u32,
}

impl<T: Numbered> CompletionToken<T> {
    /// Returns the number of the completion.
    pub fn number(&self) -> u32 {
        self.number
    }
}

/// What is left of a token once its completion is reported. Only [`CompletionQueue::tell`] makes it, so it shows that the
/// completion of its number was reported.
pub struct Acknowledgement<T: Numbered> {
    #[allow(dead_code)] // only proofs read it
    seat: Seat<T>,
    #[allow(dead_code)] // only proofs read it
    number: u32,
}

impl<T: Numbered> CompletionQueue<T> {
    /// Returns a queue with room for `room` completions, and the right to collect them. All its memory is taken here.
    ///
    /// # Preconditions
    ///
    /// - `room` is at least 1.
    pub fn new(room: usize) -> Result<(CompletionQueue<T>, Collector<T>), AllocError> {
        debug_assert!(0 < room);
        let (line, seat) = RuledQueue::new(room, false)?;
        Ok((CompletionQueue { line }, Collector { seat }))
    }

    /// Returns the right to report the next completion. Its number is how many tokens were given before.
    ///
    /// # Preconditions
    ///
    /// - `collector` belongs to `self.id`.
    /// - `number` is `collector.given`.
    pub fn token(&self, collector: &mut Collector<T>, number: u32) -> CompletionToken<T> {
        let seat = self.line.ring.another(&mut collector.seat);
        CompletionToken { seat, number }
    }

    /// Reports a completion, which has the number of the token, and waits while there is no room. Uses up the token.
    ///
    /// # Preconditions
    ///
    /// - `token` belongs to `self.id`.
    /// - `completion.number()` is `token.number()`.
    pub fn tell(&self, token: CompletionToken<T>, completion: T) -> Acknowledgement<T> {
        let CompletionToken { mut seat, number } = token;
        self.line.push_as(&mut seat, completion);
        self.line.sleepers.wake();
        Acknowledgement { seat, number }
    }

    /// Takes the first completion, and waits while there is none. A token was given for its number, and no completion of that
    /// number was collected before.
    ///
    /// # Preconditions
    ///
    /// - `collector` belongs to `self.id`.
    pub fn collect(&self, collector: &mut Collector<T>) -> T {
        self.line.pop_as(&mut collector.seat)
    }

    /// Takes the first completion if there is one now. Returns `None` if there is none.
    ///
    /// # Preconditions
    ///
    /// - `collector` belongs to `self.id`.
    pub fn try_collect(&self, collector: &mut Collector<T>) -> Option<T> {
        self.line.pop_now_as(&mut collector.seat)
    }
}
