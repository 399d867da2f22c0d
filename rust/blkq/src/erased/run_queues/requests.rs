// Erased from crates/run_queues/src/requests.rt by tools/erase: edit that file.
//! The queue of requests.

use crate::erased::crossbeam_queue::Pass;
use crate::erased::fallible::{AllocError, TryRoom, TryVec};
use crate::erased::run_queues::numbered::Numbered;
use crate::erased::run_queues::ruled_queue::RuledQueue;

type Requests<T> = RuledQueue<Option<T>>;

type Seat<T> = Pass<Option<T>>;

/// Maximum number of pushes after which a thread is woken if all sleep.
const BATCH: usize = 16;

/// A queue of requests, from which several threads draw.
///
/// A thread that draws wakes no other. A push wakes one after some pushes if all sleep, and whoever pushes wakes more by need.
pub struct RequestQueue<T: Numbered> {
    line: Requests<T>,
    consumers: usize,
    /// The number of pushes after which a thread is woken if all sleep.
    batch: usize,
}

/// The right to push requests, and the lists of what the consumers drew.
pub struct Source<T: Numbered> {
    seat: Seat<T>,
    /// The number of pushes since the last after which a thread was woken if all slept.
    untold: usize,
    lists: Vec<Vec<u32>>,
}

/// The right to draw requests, and the numbers of those that it drew.
pub struct Consumer<T: Numbered> {
    seat: Seat<T>,
    drawn: Vec<u32>,
}

impl<T: Numbered> RequestQueue<T> {
    /// Returns a queue with room for `room` requests and end marks, and the right to push into it. The memory for the lists of
    /// `consumers` consumers is taken here too.
    ///
    /// # Preconditions
    ///
    /// - `room` is at least 1.
    pub fn new(room: usize, consumers: usize) -> Result<(RequestQueue<T>, Source<T>), AllocError> {
        debug_assert!(0 < room);
        let lists = Vec::try_with_room(consumers)?;
        let batch = (room / 2).clamp(1, BATCH);
        // A sole thread that is woken for each request needs no lookout.
        let (line, seat) = RuledQueue::new(room, consumers > 1 || batch > 1)?;
        let queue = RequestQueue { line, consumers, batch };
        let source = Source { seat, untold: 0, lists };
        Ok((queue, source))
    }

    /// Returns a right to draw, with memory for `room` numbers. It is split off the right to push, and comes back to it by
    /// [`RequestQueue::gather`].
    ///
    /// # Preconditions
    ///
    /// - `source` belongs to `self.id`.
    /// - `source.parts` is at least 2.
    pub fn consumer(&self, source: &mut Source<T>, room: usize) -> Result<Consumer<T>, AllocError> {
        let drawn = Vec::try_with_room(room)?;
        let seat = self.line.ring.another(&mut source.seat);
        Ok(Consumer { seat, drawn })
    }

    /// Pushes the next request, and waits while there is no room. Its number is how many requests were pushed before. No request
    /// may follow an end mark. A thread that sleeps finds it after a while, or once it is woken.
    ///
    /// # Preconditions
    ///
    /// - `source` belongs to `self.id`.
    /// - `source.marks` is 0.
    /// - `request.number()` is `source.pushed`.
    pub fn push(&self, source: &mut Source<T>, request: T) {
        self.line.push_as(&mut source.seat, Some(request));
        source.untold = source.untold.saturating_add(1);
        if source.untold >= self.batch {
            source.untold = 0;
            self.wake_if_all_sleep();
        }
    }

    /// Wakes a thread if all sleep. Call this before you wait for what the threads do.
    pub fn wake_if_all_sleep(&self) {
        if self.line.sleepers.count() >= self.consumers {
            self.line.sleepers.wake();
        }
    }

    /// Wakes one more thread if there is a request or an end mark that none has taken. Call this after you waited in vain.
    ///
    /// # Preconditions
    ///
    /// - `source` belongs to `self.id`.
    pub fn wake_one_more(&self, source: &mut Source<T>) {
        self.line.wake_if_filled(&mut source.seat, 1);
    }

    /// Wakes all threads. Call this once all end marks are pushed, so that the threads end at once.
    pub fn wake_all(&self) {
        self.line.sleepers.wake_all();
    }

    /// Pushes one end mark, and waits while there is no room. One call of `draw` then returns `None`. Wakes a thread if all sleep.
    ///
    /// # Preconditions
    ///
    /// - `source` belongs to `self.id`.
    pub fn end(&self, source: &mut Source<T>) {
        self.line.push_as(&mut source.seat, None);
        self.wake_if_all_sleep();
    }

    /// Returns whether there is no item, at one moment of the call.
    ///
    /// # Preconditions
    ///
    /// - `consumer` belongs to `self.id`.
    pub fn is_empty(&self, consumer: &mut Consumer<T>) -> bool {
        self.line.ring.is_empty_as(&mut consumer.seat)
    }

    /// Takes the first item, and waits while there is none. Returns a request, or `None` for an end mark.
    ///
    /// Returns `AllocError`, with nothing taken, if the list has no room left and is refused more memory.
    ///
    /// # Preconditions
    ///
    /// - `consumer` belongs to `self.id`.
    pub fn draw(&self, consumer: &mut Consumer<T>) -> Result<Option<T>, AllocError> {
        consumer.drawn.try_make_room(1)?;
        let drawn = self.line.pop_as(&mut consumer.seat);
        if let Some(request) = &drawn {
            consumer.drawn.push(request.number());
        }
        Ok(drawn)
    }

    /// Takes a right to draw back, with the list of what it drew. Returns `AllocError` if there is no room for one more list and
    /// more memory is refused.
    ///
    /// # Preconditions
    ///
    /// - `source` belongs to `self.id`.
    /// - `consumer` belongs to `self.id`.
    /// - `source.parts` is at least 1.
    pub fn gather(&self, source: &mut Source<T>, consumer: Consumer<T>) -> Result<(), AllocError> {
        source.lists.try_make_room(1)?;
        let Consumer { seat, drawn } = consumer;
        self.line.ring.absorb(&mut source.seat, seat);
        source.lists.push(drawn);
        Ok(())
    }

    /// Returns the lists of what the consumers drew: each request was drawn once, and each list increases.
    ///
    /// # Preconditions
    ///
    /// - `source` belongs to `self.id`.
    /// - `source.parts` is `all_parts`.
    /// - `source.drained` is `true`.
    pub fn finish(&self, source: Source<T>) -> Vec<Vec<u32>> {
        let Source { mut seat, untold: _, lists } = source;
        self.line.ring.learn_as(&mut seat);
        lists
    }
}
