//! The part of a queue that it shares with its tags and its freezes. In comments a *share* of a queue is an `Arc` of this part.
use crate::body::{Body, TagState};
use crate::erased::queue_core::{self, BiasedEntry, BiasedTag, BlockQueue, Put};
use crate::errors::{EnterError, UpdateError};
use crate::excluded::excluded;
use crate::in_flight::InFlight;
use crate::limits::Limits;
use crate::line::Notify;
use crate::pause::Pause;
use crate::places::{self, Place, Places};
use crate::request::Request;
use crate::seats::wake_each;
use crate::tag::Tag;
use crate::threads;
use crate::value::Value;
use crate::waits::{Held, Waits};
use std::iter;
use std::mem;
use std::num::NonZeroU64;
use std::panic::{AssertUnwindSafe, catch_unwind, resume_unwind};
use std::sync::Arc;
use std::sync::atomic::{AtomicBool, Ordering::Relaxed};
use std::task::{Context, Poll, Waker};
use std::time::Instant;

/// The number of requests after which a tag checks again whether it may be biased.
const REQUESTS_BETWEEN_LOOKS: u32 = 32;

/// A queue: what each request reads and nobody writes, and the lock for the rest.
pub(crate) struct Shared<T> {
    /// The queue's unique id.
    pub(crate) id: NonZeroU64,
    /// Whether requests note when they enter.
    pub(crate) watch: AtomicBool,
    pub(crate) erased: BlockQueue,
    /// One for each tag.
    pub(crate) places: Places<T>,
    pub(crate) waits: Waits<T>,
    pub(crate) pause: Pause,
    pub(crate) value: Value<T>,
}

impl<T> Shared<T> {
    /// Enters by the tag's bias: by a store and a load. Returns whether it did.
    #[inline(always)]
    pub(crate) fn in_by_bias(&self, tag: &mut TagState) -> bool {
        !self.is_watched() && tag.erased.try_enter_biased(&self.erased)
    }

    #[inline]
    fn is_watched(&self) -> bool {
        self.watch.load(Relaxed)
    }

    /// Enters, or returns why not.
    #[inline(always)]
    pub(crate) fn in_at_once(&self, tag: &mut TagState) -> Result<(), EnterError> {
        if self.in_by_bias(tag) { Ok(()) } else { self.in_slowly(tag) }
    }

    /// Enters with a tag that didn't by its bias, or returns why not.
    #[cold]
    #[inline(never)]
    fn in_slowly(&self, tag: &mut TagState) -> Result<(), EnterError> {
        self.in_by_gate(tag, EnterError::Frozen, BiasedTag::try_enter)
    }

    /// Enters a queue that may be frozen, or returns why not.
    pub(crate) fn in_to_look(&self, tag: &mut TagState) -> Result<(), EnterError> {
        self.in_by_gate(tag, EnterError::Drained, BiasedTag::try_enter_frozen)
    }

    /// Enters by the gate, or returns why not.
    #[inline(always)]
    fn in_by_gate(
        &self,
        tag: &mut TagState,
        closed: EnterError,
        enter: impl Fn(&mut BiasedTag, &BlockQueue, u32) -> BiasedEntry,
    ) -> Result<(), EnterError> {
        if tag.erased.entered() {
            return Err(EnterError::StillEntered);
        }
        if tag.erased.is_biased() && self.is_watched() {
            self.end_bias(tag);
        }
        let mut found = enter(&mut tag.erased, &self.erased, tag.slot);
        while found == BiasedEntry::InHand {
            self.waits.let_freezer_go_on();
            found = enter(&mut tag.erased, &self.erased, tag.slot);
        }
        if let BiasedEntry::Refused(put) = found {
            self.left_gate(put);
            let is_gone = closed == EnterError::Frozen && self.waits.lock().is_dying;
            return Err(if is_gone { EnterError::Dying } else { closed });
        }
        if !tag.erased.is_biased() {
            tag.limits = tag.erased.limits().into();
            tag.keeps = self.may_be_biased(tag);
            if self.is_watched() {
                self.note(tag, true);
            }
        }
        Ok(())
    }

    /// Ends the bias of a tag that isn't in, and drops its reference of the gate.
    fn end_bias(&self, tag: &mut TagState) {
        loop {
            match tag.erased.end_bias(&self.erased, tag.slot) {
                Some(put) => return self.left_gate(put),
                None => self.waits.let_freezer_go_on(),
            }
        }
    }

    /// Whether a tag that has entered the gate becomes biased when it leaves. It asks the clock at most once
    /// every 32 requests while biases are paused.
    fn may_be_biased(&self, tag: &mut TagState) -> bool {
        if tag.asks_after > 0 {
            tag.asks_after -= 1;
            return false;
        }
        let may = !self.is_watched() && self.pause.is_over();
        tag.asks_after = if may { 0 } else { REQUESTS_BETWEEN_LOOKS };
        may
    }

    /// Enters, waiting until the deadline if the queue is frozen. The deadline is computed only then.
    #[inline(always)]
    pub(crate) fn in_by(
        &self,
        tag: &mut TagState,
        deadline: impl FnOnce() -> Option<Instant>,
    ) -> Result<(), EnterError> {
        match self.in_at_once(tag) {
            Err(EnterError::Frozen) => self.waits_until(tag, deadline()),
            done => done,
        }
    }

    /// Enters, or returns why not; or the task waits, perhaps for the first time, and the context's waker is noted.
    #[inline(always)]
    pub(crate) fn poll_enter(
        &self,
        tag: &mut TagState,
        context: &Context<'_>,
        is_first: bool,
    ) -> Poll<Result<(), EnterError>> {
        if self.in_by_bias(tag) { Poll::Ready(Ok(())) } else { self.poll_enter_slowly(tag, context, is_first) }
    }

    #[cold]
    #[inline(never)]
    fn poll_enter_slowly(
        &self,
        tag: &mut TagState,
        context: &Context<'_>,
        is_first: bool,
    ) -> Poll<Result<(), EnterError>> {
        let polled = catch_unwind(AssertUnwindSafe(|| self.in_or_noted(tag, context, is_first)));
        if matches!(polled, Ok(Poll::Pending)) {
            return Poll::Pending;
        }
        let noted = self.forget_waker(tag);
        let request = polled.unwrap_or_else(|panic| resume_unwind(panic)).map_ok(|()| Request::of(self, tag));
        drop(noted); // may panic: then the request leaves
        request.map_ok(mem::forget)
    }

    fn in_or_noted(&self, tag: &mut TagState, context: &Context<'_>, is_first: bool) -> Poll<Result<(), EnterError>> {
        loop {
            match self.in_at_once(tag) {
                Err(EnterError::Frozen) => {}
                done => return Poll::Ready(done),
            }
            let mut waker = Some(context.waker().clone()); // before the lock, since it is somebody's code
            if self.waits.lock().notes(tag, &mut waker, is_first) {
                return Poll::Pending; // here the waker that was noted before is dropped, which may panic as well
            }
        }
    }

    /// Removes the waker that a future left for this tag, if it did: no future waits with the tag any more.
    #[inline]
    pub(crate) fn forget_waker(&self, tag: &mut TagState) -> Option<Waker> {
        if tag.is_noted { self.forget_noted(tag) } else { None }
    }

    #[cold]
    fn forget_noted(&self, tag: &mut TagState) -> Option<Waker> {
        tag.is_noted = false;
        self.waits.lock().seats.forget(tag.number)
    }

    /// Enters by the deadline. At the last try the queue was frozen.
    #[cold]
    fn waits_until(&self, tag: &mut TagState, deadline: Option<Instant>) -> Result<(), EnterError> {
        let waits = self.waits.begin_to_wait();
        let mut entered = Err(EnterError::Frozen);
        while entered == Err(EnterError::Frozen) {
            let is_open = self.waits.until_open(deadline);
            entered = if is_open { self.in_at_once(tag) } else { Err(EnterError::TimedOut) };
        }
        // The last request to enter wakes the task of an update, whose waker may panic.
        if let Err(panic) = catch_unwind(AssertUnwindSafe(|| drop(waits))) {
            entered.is_ok().then(|| self.leave(tag));
            resume_unwind(panic);
        }
        entered
    }

    /// Whether the queue is frozen and drained.
    pub(crate) fn is_drained(&self) -> bool {
        self.waits.lock().freezer.poll_drained(&self.erased)
    }

    /// Sets limits that were checked, under a freeze that has drained the queue.
    pub(crate) fn store_limits(&self, limits: queue_core::Limits) -> Result<(), UpdateError> {
        let mut held = self.waits.lock();
        if limits.hw() != held.freezer.limits().hw() {
            return Err(UpdateError::OtherHardware);
        }
        held.turns.refuse_nested()?;
        self.set(&mut held, limits);
        Ok(())
    }

    /// Sets the limits of an update if the limits that it saw are still in force, and returns whether they are. The lock is held
    /// from the look to the store.
    pub(crate) fn replace_limits(&self, from: Limits, to: queue_core::Limits) -> bool {
        let mut held = self.waits.lock();
        let is_so_still = Limits::from(held.freezer.limits()) == from;
        if is_so_still {
            self.set(&mut held, to);
            held.counts.stats.updates += 1;
        }
        is_so_still
    }

    fn set(&self, held: &mut Held<T>, limits: queue_core::Limits) {
        held.freezer.set(&self.erased, limits).unwrap_or_else(|fault| excluded("set", fault));
    }

    /// A tag of this queue that has entered leaves.
    #[inline(always)]
    pub(crate) fn leave(&self, tag: &mut TagState) {
        if !self.left_by_bias(tag) {
            self.leave_slowly(tag);
        }
    }

    /// Leaves by the tag's bias: by a store and a load. Returns whether it did.
    #[inline(always)]
    pub(crate) fn left_by_bias(&self, tag: &mut TagState) -> bool {
        tag.erased.leave_biased(&self.erased)
    }

    /// A tag without a bias, or whose bias is over, leaves. If it had none, it becomes biased if it may.
    #[cold]
    #[inline(never)]
    pub(crate) fn leave_slowly(&self, tag: &mut TagState) {
        let put = if tag.erased.is_biased() {
            tag.erased.end_bias(&self.erased, tag.slot)
        } else {
            if tag.is_watched {
                self.note(tag, false);
            }
            Some(tag.erased.leave(&self.erased, tag.slot, tag.keeps))
        };
        if let Some(put) = put {
            self.left_gate(put);
        }
    }

    /// Notes that a request of the tag is in, or that it has left.
    #[cold]
    fn note(&self, tag: &mut TagState, is_in: bool) {
        tag.is_watched = is_in;
        *self.places.all()[tag.number].noted.lock() = is_in.then(|| InFlight::now(tag.number));
    }

    /// Handles the put of a tag that isn't in. If it was the last of a freeze, the waiters for the drain are woken.
    #[inline]
    fn left_gate(&self, put: Put) {
        if put == Put::Last {
            self.tell_drained();
        }
    }

    /// Returns a tag that is home and not reserved, for a request on the slot of this thread.
    #[inline]
    pub(crate) fn try_any(&self) -> Option<Tag<T>> {
        let (thread, from) = threads::hint();
        let mut tag = match self.places.try_take_at(from) {
            Some(tag) => tag,
            None => self.try_other(thread, from)?,
        };
        let slot = self.slot_of(thread);
        // Mostly they are equal already, and a store delays the exchange that comes next.
        if tag.state.slot != slot {
            tag.state.slot = slot;
        }
        Some(Tag::of(tag))
    }

    /// Returns another tag that is home and not reserved, at which the thread's next search begins.
    #[cold]
    #[inline(never)]
    fn try_other(&self, thread: u32, from: usize) -> Option<Body<T>> {
        let (number, tag) = self.places.try_take(from)?;
        threads::note(thread, number);
        Some(tag)
    }

    /// Returns a tag that is home in one of these places, searching under the lock. `None` only if none was home at some
    /// moment of the call.
    #[cold]
    pub(crate) fn under_lock(&self, places: &[Place<T>]) -> Option<Body<T>> {
        let _held = self.waits.lock(); // so none comes home behind the look
        places::take_or_ask(places)
    }

    /// Returns a tag that is home, for a caller that keeps it: a reserved one, if there is one. It counts on a slot by its
    /// number. `None` only if none was home at some moment of the call.
    pub(crate) fn try_tag(&self) -> Option<Tag<T>> {
        let reserved = self.places.reserved().iter().find_map(|place| place.home.take());
        let tag = reserved.or_else(|| self.places.try_take(0).map(|(_, tag)| tag));
        let mut tag = tag.or_else(|| self.under_lock(self.places.all()))?;
        tag.state.slot = u32::try_from(tag.state.number).unwrap_or(0) % self.erased.slots();
        Some(Tag::of(tag))
    }

    /// The slot of a thread, by its number.
    #[inline]
    pub(crate) fn slot_of(&self, thread: u32) -> u32 {
        let slots = self.erased.slots();
        if thread < slots { thread } else { thread % slots }
    }
}

/// Brings home a tag that was asked for, or whose queue was dropped: gives it to the first in line, puts it into its place, or ends it.
#[cold]
pub(crate) fn hand_over<T>(tag: Body<T>) {
    let shared = Arc::clone(&tag.shared);
    let mut held = shared.waits.lock();
    let first = if held.is_closed {
        drop(tag.end());
        None
    } else if shared.places.is_reserved(tag.state.number) {
        tag.bring();
        None
    } else {
        held.line.hand(tag).map_err(Body::bring).ok()
    };
    drop(held);
    drop(shared); // before a waker is called, which may remove the queue
    wake_each(first.into_iter());
}

/// Wakes the futures that wait to enter. The share ends before the last of them is woken, since that may remove the queue.
/// Each is taken under the lock; if the queue is frozen again meanwhile, a future is woken for nothing.
pub(crate) fn entering<T>(share: Arc<Shared<T>>) -> impl Iterator<Item = Notify> {
    let (mut share, mut seat) = (Some(share), 0);
    iter::from_fn(move || {
        let queue = share.take()?;
        let mut held = queue.waits.lock();
        let next = held.seats.next(seat);
        let waker = next.and_then(|next| held.seats.forget(next));
        seat = next.map_or(seat, |next| next + 1);
        if held.seats.next(seat).is_some() {
            drop(held);
            share = Some(queue);
        } else {
            held.shares -= 1;
        }
        waker.map(Notify::Task)
    })
}
