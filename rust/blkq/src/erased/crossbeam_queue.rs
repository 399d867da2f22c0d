// A stand-in for the kit's crossbeam_queue, written by hand: tools/erase leaves it alone.
//! A bounded queue that many threads push to and pop from.
//!
//! In the sources a queue has a rule by which threads hand on, and a thread steps on it by a [`Pass`] that knows its part.
//! Here the rule is gone, and a pass has no bytes.
//!
//! A push claims its place by an exchange of the place's turn, and a pop by an exchange of the head. A pop that finds nothing has read only
//! the head and one place, so threads that look for an item take no cache line from a push but that of the place it writes.
//!
//! A place is written and read with no lock, which takes `unsafe`. Its argument is the one for any bounded queue with tickets. *One at a
//! time*: an exchange of the turn or the head gives a ticket to one thread alone, and that thread alone may touch the ticket's place until it
//! stores the next turn. *Order*: it has read the turn by an acquiring step, and stores the next turn by a releasing one. So what the thread
//! before it did to the place came before.
#![allow(unsafe_code)]

use crate::erased::crossbeam_utils::{Backoff, CachePadded};
use crate::erased::fallible::{AllocError, TryVec};
use std::cell::UnsafeCell;
use std::fmt;
use std::marker::PhantomData;
use std::sync::atomic::AtomicUsize;
use std::sync::atomic::Ordering::{Relaxed, Release, SeqCst};

/// The right to step on a queue.
#[derive(Debug)]
pub struct Pass<T> {
    of: PhantomData<fn() -> T>,
}

impl<T> Pass<T> {
    fn new() -> Pass<T> {
        Pass { of: PhantomData }
    }
}

/// The turn of a place that is free for the push with this ticket.
const fn free(ticket: usize) -> usize {
    4 * ticket
}

/// The turn of a place that the push with this ticket has claimed, and still writes.
const fn claimed(ticket: usize) -> usize {
    4 * ticket + 1
}

/// The turn of a place that has the item of this ticket.
const fn full(ticket: usize) -> usize {
    4 * ticket + 2
}

/// A place for one item, with its turn.
///
/// It begins a cache line, so that a thread which waits at one place doesn't take the line of the next from whoever uses that.
#[repr(align(64))]
struct Place<T> {
    turn: AtomicUsize,
    item: UnsafeCell<Option<T>>,
}

// SAFETY: an item goes from one thread to another, which `T: Send` allows. No two threads touch a place at once: see `put` and `take`.
unsafe impl<T: Send> Sync for Place<T> {}

impl<T> fmt::Debug for Place<T> {
    fn fmt(&self, f: &mut fmt::Formatter<'_>) -> fmt::Result {
        f.debug_struct("Place").field("turn", &self.turn).finish_non_exhaustive()
    }
}

impl<T> Place<T> {
    fn new(ticket: usize) -> Place<T> {
        Place { turn: AtomicUsize::new(free(ticket)), item: UnsafeCell::new(None) }
    }

    /// Puts an item into an empty place.
    ///
    /// # Safety
    ///
    /// A push has claimed the place, and it is this thread's.
    unsafe fn put(&self, item: T) {
        // SAFETY: whoever has the ticket is alone here until it stores the next turn.
        unsafe { *self.item.get() = Some(item) };
    }

    /// Takes the item out.
    ///
    /// # Safety
    ///
    /// The place has the item of a ticket, and this thread's pop has that ticket.
    unsafe fn take(&self) -> Option<T> {
        // SAFETY: whoever has the ticket is alone here until it stores the next turn.
        unsafe { (*self.item.get()).take() }
    }
}

/// The queue: a ring of places. Pushes take tickets at the tail, pops at the head. The low bits of a ticket are the number of its place, and
/// those above count the rounds.
#[derive(Debug)]
pub struct RuledArrayQueue<T> {
    places: Vec<Place<T>>,
    /// What a ticket grows by in a round: the least power of two that isn't below the number of places.
    round: usize,
    /// The ticket of the next pop.
    head: CachePadded<AtomicUsize>,
    /// The ticket of the next push, or of the last one while that push is under way.
    tail: CachePadded<AtomicUsize>,
}

impl<T> RuledArrayQueue<T> {
    /// An empty queue with room for `room` items, at least one, and its first pass.
    pub fn ruled(room: usize) -> Result<(Self, Pass<T>), AllocError> {
        let room = room.max(1);
        let mut places = Vec::try_with_room(room)?;
        places.extend((0..room).map(Place::new));
        let queue = RuledArrayQueue {
            places,
            round: room.next_power_of_two(),
            head: CachePadded::new(AtomicUsize::new(0)),
            tail: CachePadded::new(AtomicUsize::new(0)),
        };
        Ok((queue, Pass::new()))
    }

    /// How many items there is room for.
    pub fn capacity(&self) -> usize {
        self.places.len()
    }

    #[inline]
    fn place(&self, ticket: usize) -> &Place<T> {
        &self.places[ticket & (self.round - 1)]
    }

    /// The ticket after this one.
    #[inline]
    fn next(&self, ticket: usize) -> usize {
        let place = ticket & (self.round - 1);
        if place + 1 < self.places.len() { ticket + 1 } else { ticket - place + self.round }
    }

    /// Moves the tail past a ticket that a push has, unless another thread did.
    #[inline]
    fn pass_by(&self, ticket: usize) {
        let _ = self.tail.compare_exchange(ticket, self.next(ticket), SeqCst, Relaxed);
    }

    /// Puts an item behind the others, or returns it if there is no room.
    pub fn push_as(&self, _pass: &mut Pass<T>, item: T) -> Result<(), T> {
        let backoff = Backoff::new();
        loop {
            let ticket = self.tail.load(SeqCst);
            let place = self.place(ticket);
            // No load before the exchange: the cache line would be fetched twice.
            let Err(turn) = place.turn.compare_exchange(free(ticket), claimed(ticket), SeqCst, SeqCst) else {
                self.pass_by(ticket);
                // SAFETY: the exchange gave the place to this thread.
                unsafe { place.put(item) };
                place.turn.store(full(ticket), Release);
                return Ok(());
            };
            if turn > free(ticket) {
                // Another push has this ticket.
                self.pass_by(ticket);
                backoff.spin();
                continue;
            }
            // The place has an item of the round before. The queue is full, unless a pop of that item is under way.
            if self.head.load(SeqCst) + self.round == ticket {
                return Err(item);
            }
            backoff.snooze();
        }
    }

    /// Takes the first item, if there is one.
    pub fn pop_as(&self, _pass: &mut Pass<T>) -> Option<T> {
        let backoff = Backoff::new();
        loop {
            let ticket = self.head.load(SeqCst);
            let place = self.place(ticket);
            let turn = place.turn.load(SeqCst);
            if turn == full(ticket) {
                if self.head.compare_exchange_weak(ticket, self.next(ticket), SeqCst, Relaxed).is_ok() {
                    // SAFETY: the place had this ticket's item, and the exchange gave the ticket to this thread.
                    let item = unsafe { place.take() };
                    place.turn.store(free(ticket + self.round), Release);
                    return item;
                }
                backoff.spin();
            } else if turn <= free(ticket) {
                // No push has this ticket yet, so none has a later one: the queue is empty.
                return None;
            } else if turn == claimed(ticket) {
                backoff.snooze();
            }
            // A later turn: another pop has taken this ticket.
        }
    }

    /// Whether the queue is empty, at one moment of this call.
    pub fn is_empty_as(&self, _pass: &mut Pass<T>) -> bool {
        let ticket = self.head.load(SeqCst);
        self.place(ticket).turn.load(SeqCst) <= free(ticket)
    }

    /// How many tickets precede this one.
    fn count_before(&self, ticket: usize) -> usize {
        ticket / self.round * self.places.len() + (ticket & (self.round - 1))
    }

    /// How many items the queue has: exactly, if no other thread steps on it meanwhile.
    pub fn len_as(&self, _pass: &mut Pass<T>) -> usize {
        let head = self.count_before(self.head.load(SeqCst));
        self.count_before(self.tail.load(SeqCst)).saturating_sub(head)
    }

    /// A pass beside this one.
    pub fn another(&self, _pass: &mut Pass<T>) -> Pass<T> {
        Pass::new()
    }

    /// Ends a pass.
    pub fn absorb(&self, _pass: &mut Pass<T>, _other: Pass<T>) {}

    /// For the prover alone: does nothing.
    pub fn learn_as(&self, _pass: &mut Pass<T>) {}

    /// A pass of a queue without a rule.
    pub fn pass(&self) -> Pass<T> {
        Pass::new()
    }
}
