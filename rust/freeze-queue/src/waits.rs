//! How threads and tasks wait at a queue, and are woken. A request that enters or leaves a live
//! queue touches nothing of this, unless its bias was taken while it was in flight.
//!
//! No wake is lost. A thread that sleeps announces it, looks, and then sleeps, all under the lock. The look asks the queue
//! itself, and a waking thread changes the queue before it locks to wake. No thread holds the lock while the queue drains,
//! and no user's code runs under it: wakers are called after it is released.
use crate::body::{Body, TagState};
use crate::counts::Counts;
use crate::erased::percpu_core::KILL_LIMIT;
use crate::erased::queue_core::{BiasedTag, BlockQueue, Final, FreezeFault, Freezer, LIMIT_WORDS, Tag};
use crate::errors::FreezeError;
use crate::excluded::excluded;
use crate::frozen_by::FreezeList;
use crate::line::{Line, Notify};
use crate::locked::{Lock, Locked};
use crate::patience::Patience;
use crate::pause::{Pause, Pauses};
use crate::seats::{Seats, wake_each};
use crate::shared::{self, Shared};
use crate::sync::{Condvar, MOST_PATIENCE};
use crate::turns::Turns;
use std::mem;
use std::panic::Location;
use std::sync::Arc;
use std::sync::atomic::{AtomicBool, Ordering::Relaxed};
use std::task::Waker;
use std::time::Instant;

/// The state that the lock guards.
pub(crate) struct Held<T> {
    pub(crate) freezer: Freezer,
    pauses: Pauses,
    pub(crate) seats: Seats,
    pub(crate) line: Line<Body<T>>,
    pub(crate) turns: Turns,
    /// The tasks that wait for the drain, and the task of an update that waits until threads have entered.
    pub(crate) drains: Line<()>,
    pub(crate) let_in: Line<()>,
    /// Room for all tags of the queue, for its end.
    room: Vec<Tag>,
    /// Freezes and futures that have a share of the queue.
    pub(crate) shares: u32,
    /// The device is gone: no request enters any more.
    pub(crate) is_dying: bool,
    /// The queue is dying and no freeze is held. The gate stays closed because of this flag, which doesn't count as a freeze.
    is_shut: bool,
    /// The queue was dropped, or its tags were taken back: a tag that comes home ends.
    pub(crate) is_closed: bool,
    /// The number of threads that sleep, by what they sleep for.
    asleep: [u32; 3],
    waiting: Waiting,
    pub(crate) counts: Counts,
    pub(crate) freezes: FreezeList,
}

/// What threads sleep for at a queue.
#[derive(Clone, Copy)]
enum Until {
    Open,
    Drained,
    /// The threads that waited at the last thaw have entered.
    LetIn,
}

/// The threads that wait to enter, from before they sleep until they have entered or given up.
#[derive(Default)]
struct Waiting {
    now: u32,
    /// The number of them that were there at the last thaw: an update lets these in first.
    owed: u32,
    thaws: u64,
}

impl<T> Held<T> {
    /// Makes the state of a new queue with this many tags. None if memory is refused.
    pub(crate) fn new(freezer: Freezer, tags: usize) -> Option<Held<T>> {
        let mut room = Vec::new();
        room.try_reserve_exact(tags).ok()?;
        Some(Held {
            freezer,
            pauses: Pauses::default(),
            seats: Seats::new(tags)?,
            line: Line::new(tags)?,
            turns: Turns::new()?,
            room,
            drains: Line::new(0)?,
            let_in: Line::new(0)?,
            shares: 0,
            is_dying: false,
            is_shut: false,
            is_closed: false,
            asleep: [0; 3],
            waiting: Waiting::default(),
            counts: Counts::default(),
            freezes: FreezeList::default(),
        })
    }

    /// Returns the number of freezes that aren't thawed.
    pub(crate) fn depth(&self) -> u32 {
        self.freezer.depth() - u32::from(self.is_shut)
    }

    /// Begins a freeze. The queue's last kill is reserved for its end.
    fn start_freeze(&mut self, queue: &BlockQueue, pause: &Pause) -> Result<(), FreezeError> {
        if mem::take(&mut self.is_shut) {
            return Ok(()); // it holds the queue from now on
        }
        if self.freezer.depth() == 0 && self.counts.kills >= KILL_LIMIT - 1 {
            return Err(FreezeError::WornOut);
        }
        self.kill_or_nest(queue, pause)
    }

    fn kill_or_nest(&mut self, queue: &BlockQueue, pause: &Pause) -> Result<(), FreezeError> {
        let takes = queue.has_parked().then(|| pause.now());
        match self.freezer.start_freeze(queue) {
            Ok(frozen) if frozen.depth == 1 => {
                if let Some(from) = takes {
                    pause.begins(&mut self.pauses, from);
                }
                self.counts.begins(self.freezer.poll_drained(queue));
            }
            Ok(_) => {}
            Err(FreezeFault::DepthFull) => return Err(FreezeError::DepthFull),
            Err(other) => excluded("start_freeze", other),
        }
        Ok(())
    }

    /// Ends a freeze. Returns whether requests enter again.
    fn end_freeze(&mut self, queue: &BlockQueue) -> bool {
        if self.is_dying && self.freezer.depth() == 1 {
            self.is_shut = true;
            return false;
        }
        let is_live = self.freezer.thaw(queue).unwrap_or_else(|fault| excluded("thaw", fault)).live;
        if is_live {
            self.counts.ends();
            self.waiting.owed = self.waiting.now;
            self.waiting.thaws += 1;
        }
        is_live
    }

    /// Closes a queue for good, whether it is frozen or not, even at the maximum depth.
    pub(crate) fn shut(&mut self, queue: &BlockQueue, pause: &Pause) {
        if self.freezer.depth() == 0 {
            self.kill_or_nest(queue, pause).unwrap_or_else(|fault| excluded("start_freeze", fault));
            self.is_shut = true;
        }
    }

    /// Takes a tag back at the end of a queue, which is frozen.
    pub(crate) fn take_back(&mut self, queue: &BlockQueue, mut tag: BiasedTag) {
        let _ended = tag.end_bias(queue, 0);
        self.room.extend(tag.into_tag()); // there is room: it is one of the queue's
    }

    /// Ends a frozen queue, whose tags were all taken back.
    pub(crate) fn remove(self, queue: BlockQueue) -> Final<LIMIT_WORDS> {
        self.freezer.remove(queue, self.room).unwrap_or_else(|fault| excluded("remove", fault.why))
    }

    /// Whether a caller that enters needn't wait: requests enter, or never will again.
    fn is_open(&self) -> bool {
        self.is_dying || self.freezer.depth() == 0
    }

    /// Notes the waker in the tag's seat, to be called once its caller needn't wait. Leaves the seat's old waker in its
    /// place: no waker is dropped here, since a drop runs code of the user. Counts the first wait of a future. Does nothing
    /// if the queue is open, and returns whether it isn't.
    pub(crate) fn notes(&mut self, tag: &mut TagState, waker: &mut Option<Waker>, is_first: bool) -> bool {
        if self.is_open() {
            return false;
        }
        self.counts.stats.waited += u64::from(is_first);
        tag.is_noted = true;
        *waker = waker.take().and_then(|waker| self.seats.note(tag.number, waker));
        true
    }

    /// Whether the threads that waited at the last thaw have entered or given up.
    pub(crate) fn has_let_in(&self) -> bool {
        self.waiting.owed == 0 || self.freezer.depth() > 0
    }
}

/// The waits of a queue, on cache lines of their own, apart from what each request reads of its queue.
#[repr(align(128))]
pub(crate) struct Waits<T> {
    held: Lock<Held<T>>,
    /// The conditions on which threads sleep, by what they sleep for.
    sleep: [Condvar; 3],
    for_open: Patience,
    for_drain: Patience,
    shut: Shut,
}

/// A thread that waits to enter, until this is dropped.
pub(crate) struct WaitsToEnter<'q, T> {
    waits: &'q Waits<T>,
    /// The number of thaws before it began to wait.
    thaws: u64,
}

impl<T> Drop for WaitsToEnter<'_, T> {
    fn drop(&mut self) {
        let mut held = self.waits.lock();
        held.waiting.now -= 1;
        if self.thaws < held.waiting.thaws {
            held.waiting.owed -= 1;
            if held.waiting.owed == 0 {
                self.waits.rouse(&held, Until::LetIn);
                let tasks = held.let_in.send_away();
                drop(held);
                wake_each(tasks);
            }
        }
    }
}

/// Whether a caller that enters has to wait. A hint for a thread that is about to sleep, on a cache line of its own, set under the lock.
#[repr(align(128))]
struct Shut(AtomicBool);

impl<T> Waits<T> {
    pub(crate) fn of(held: Held<T>) -> Waits<T> {
        Waits {
            held: Lock::new(held),
            sleep: [const { Condvar::new() }; 3],
            for_open: Patience::new(MOST_PATIENCE),
            for_drain: Patience::new(MOST_PATIENCE),
            shut: Shut(AtomicBool::new(false)),
        }
    }

    /// Takes the lock. (The state is consistent wherever a bug of this crate panics.)
    pub(crate) fn lock(&self) -> Locked<'_, Held<T>> {
        self.held.lock()
    }

    /// Returns the state that the lock guards. No other thread has the queue.
    pub(crate) fn into_held(self) -> Held<T> {
        self.held.into_inner()
    }

    /// Sleeps until the condition holds under the lock. Returns whether it held by the deadline.
    fn sleep(&self, until: Until, deadline: Option<Instant>, mut is_so: impl FnMut(&mut Held<T>) -> bool) -> bool {
        let (mut held, mut in_time) = (self.lock(), true);
        held.asleep[until as usize] += 1;
        let seen = loop {
            let seen = is_so(&mut held);
            if seen || !in_time {
                break seen;
            }
            (held, in_time) = held.sleep(&self.sleep[until as usize], deadline);
        };
        held.asleep[until as usize] -= 1;
        seen
    }

    /// Counts a wait that ended because its deadline had passed. Returns whether what it waited for came in time.
    fn noted(&self, came: bool) -> bool {
        if !came {
            self.lock().counts.stats.timed_out += 1;
        }
        came
    }

    /// Wakes the threads that sleep for this.
    fn rouse(&self, held: &Held<T>, until: Until) {
        if held.asleep[until as usize] > 0 {
            self.sleep[until as usize].notify_all();
        }
    }

    /// Waits until requests enter, or never will again. Returns whether that was by the deadline.
    pub(crate) fn until_open(&self, deadline: Option<Instant>) -> bool {
        self.for_open.sees(deadline, || !self.shut.0.load(Relaxed));
        let is_open = self.sleep(Until::Open, deadline, |held| {
            debug_assert_eq!(self.shut.0.load(Relaxed), !held.is_open(), "the hint is set under the lock");
            held.is_open()
        });
        self.noted(is_open)
    }

    /// Notes a thread that waits to enter.
    pub(crate) fn begin_to_wait(&self) -> WaitsToEnter<'_, T> {
        let mut held = self.lock();
        held.waiting.now += 1;
        held.counts.stats.waited += 1;
        WaitsToEnter { waits: self, thaws: held.waiting.thaws }
    }

    /// Waits until the threads that waited at the last thaw have entered or given up.
    pub(crate) fn until_let_in(&self, deadline: Option<Instant>) {
        self.sleep(Until::LetIn, deadline, |held| held.has_let_in());
    }

    /// Waits for a freezer that is just handling the reference of a tag, which it does under the lock.
    pub(crate) fn let_freezer_go_on(&self) {
        drop(self.lock());
    }

    /// Wakes the threads that wait to enter.
    fn let_enter(&self, held: &Held<T>) {
        self.shut.0.store(false, Relaxed);
        self.rouse(held, Until::Open);
    }
}

impl<T> Shared<T> {
    /// Begins a freeze, which the caller thaws. The caller also wakes the returned waiters, since an update has nobody to let in
    /// any more. If the freeze drains the queue at once, the waiters for the drain see it by themselves. Returns the freeze's number, too.
    pub(crate) fn begin_freeze(
        &self,
        location: &'static Location<'static>,
    ) -> Result<(u64, impl Iterator<Item = Notify> + use<T>), FreezeError> {
        let mut held = self.waits.lock();
        held.start_freeze(&self.erased, &self.pause)?;
        held.counts.stats.freezes += 1;
        held.shares += 1;
        self.waits.shut.0.store(!held.is_dying, Relaxed);
        self.waits.rouse(&held, Until::LetIn);
        Ok((held.freezes.add(location), held.let_in.send_away()))
    }

    /// Waits until a frozen queue is drained. Returns whether it was by the deadline.
    pub(crate) fn until_drained(&self, deadline: Option<Instant>) -> bool {
        let is_drained = |held: &mut Held<T>| held.freezer.poll_drained(&self.erased);
        self.waits.for_drain.sees(deadline, || self.is_drained())
            || self.waits.noted(self.waits.sleep(Until::Drained, deadline, is_drained))
    }

    /// Ends the freeze of this share. If it was the last freeze, wakes the waiters to enter.
    pub(crate) fn thaw(self: Arc<Self>, number: u64) {
        let mut held = self.waits.lock();
        held.freezes.remove(number);
        if !held.end_freeze(&self.erased) {
            held.shares -= 1;
            return;
        }
        self.waits.let_enter(&held);
        drop(held);
        wake_each(shared::entering(self));
    }

    /// Lets no request enter any more, and ends the freeze of this share, if it has one, by its number. Wakes the waiters to enter
    /// and for a tag; they are refused.
    pub(crate) fn mark_dying(self: Arc<Self>, freeze: Option<u64>) {
        let mut held = self.waits.lock();
        if !mem::replace(&mut held.is_dying, true) {
            held.counts.dies();
        }
        if let Some(number) = freeze {
            held.freezes.remove(number);
            held.end_freeze(&self.erased);
        } else {
            held.shut(&self.erased, &self.pause);
            held.shares += 1; // that of this call
        }
        self.waits.let_enter(&held);
        let line = held.line.send_away();
        drop(held);
        wake_each(shared::entering(self).chain(line));
    }

    /// Wakes the waiters for the drain. A call that found the queue drained, or ended a bias, does this.
    #[cold]
    pub(crate) fn tell_drained(&self) {
        let mut held = self.waits.lock();
        if held.freezer.poll_drained(&self.erased) {
            held.counts.drained(); // otherwise requests are still in flight, or that freeze is over
        }
        self.waits.rouse(&held, Until::Drained);
        let tasks = held.drains.send_away();
        drop(held);
        wake_each(tasks);
    }

    /// The queue was dropped: ends each tag that is home. Any other tag ends when it comes home.
    pub(crate) fn close(&self) {
        let mut held = self.waits.lock();
        if mem::replace(&mut held.is_closed, true) {
            return;
        }
        let (handed, sent_away) = (held.line.take_handed(), held.line.send_away());
        // Under the lock: if a tag that was asked for ended meanwhile, the search would mark its place as out forever.
        let homes = self.places.all().iter().filter_map(|place| place.home.take_or_ask());
        for tag in homes.chain(handed.into_iter().map(|(_, tag)| tag)) {
            drop(tag.end());
        }
        drop(held);
        wake_each(sent_away); // futures with a share of the queue
    }
}
