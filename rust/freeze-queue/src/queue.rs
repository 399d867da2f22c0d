//! A queue: making and ending it, its tags, and its state.
use crate::body::{Parts, TagState};
use crate::builder::Builder;
use crate::counts::Stats;
use crate::erased::fences;
use crate::erased::percpu_core::SLOT_LIMIT;
use crate::erased::queue_core::{self as erased, BlockQueue, Mode};
use crate::errors::{EnterError, NewError, RemoveError};
use crate::handed_back::HandedBack;
use crate::limits::Limits;
use crate::outcomes::Final;
use crate::pause::Pause;
use crate::places::Places;
use crate::shared::Shared;
use crate::sync::{MOST_PATIENCE, sleep};
use crate::tag::Tag;
use crate::value::Value;
use crate::waits::{Held, Waits};
use std::num::NonZeroU64;
use std::panic::{RefUnwindSafe, UnwindSafe};
use std::sync::Arc;
use std::sync::atomic::Ordering::{Relaxed, SeqCst};
use std::sync::atomic::{AtomicBool, AtomicU64};

mod dying;
mod enters;
mod enters_any;
mod enters_owned;
mod freezes;
mod listed;
mod updates;
mod value_updates;

/// A queue that requests enter and leave on many threads, and whose limits change under a freeze.
///
/// Threads share it by `&`, or by an `Arc`. As long as the queue isn't frozen, and [`watch`](Queue::watch) is off, a thread
/// that has a tag enters and leaves without a lock, and waits for no thread.
///
/// [`remove`](Queue::remove) ends a queue and returns its value. You may also drop a queue, even while a device hangs.
/// Tags, owned requests and owned freezes hold a reference-counted handle of their queue, which keeps its memory and its
/// value alive; the last handle that is dropped frees both.
///
/// ```
/// use freeze_queue::{Limits, Queue};
/// use std::thread;
///
/// let queue = Queue::new(Limits::of_hardware(64))?;
/// thread::scope(|threads| {
///     for _ in 0..2 {
///         threads.spawn(|| {
///             let mut tag = queue.tag().unwrap();
///             let request = queue.enter(&mut tag).unwrap();
///             request.pieces(0, 100).unwrap().for_each(|piece| assert!(piece.sectors <= 64));
///         });
///     }
///     let frozen = queue.freeze().unwrap(); // no request is in flight
///     frozen.set(Limits::of_hardware(64).with_max(8)).unwrap();
/// });
/// # Ok::<(), Box<dyn std::error::Error>>(())
/// ```
pub struct Queue<T = ()> {
    shared: Arc<Shared<T>>,
}

/// A panic leaves the queue usable: a request that unwinds leaves, and a freeze thaws.
impl<T: RefUnwindSafe> UnwindSafe for Queue<T> {}
impl<T: RefUnwindSafe> RefUnwindSafe for Queue<T> {}

impl Queue {
    /// Maximum number of slots.
    pub const MAX_SLOTS: u32 = SLOT_LIMIT;

    /// Maximum number of tags.
    pub const MAX_TAGS: u32 = erased::MOST_TAGS;

    /// Maximum number of freezes that aren't thawed yet.
    pub const MAX_DEPTH: u32 = erased::MOST_DEPTH;

    /// Makes a live queue with 256 tags and a slot for each processor.
    ///
    /// # Errors
    ///
    /// Returns [`NewError::Limits`] or [`NewError::NoMemory`].
    ///
    /// # Examples
    ///
    /// ```
    /// use freeze_queue::{Limits, Queue};
    ///
    /// let queue = Queue::new(Limits::of_hardware(64))?;
    /// assert_eq!((queue.limits().max, queue.tags()), (64, 256));
    /// # Ok::<(), Box<dyn std::error::Error>>(())
    /// ```
    pub fn new(limits: Limits) -> Result<Queue, NewError> {
        Ok(Queue::builder(limits).build()?)
    }

    /// Returns a [`Builder`], which sets the number of tags and slots, and the value.
    pub fn builder(limits: Limits) -> Builder {
        Builder::new(limits)
    }
}

impl<T> Queue<T> {
    /// Returns a closure that builds the queue around its value. Everything that can fail has been done by then.
    pub(crate) fn maker(
        limits: Limits,
        slots: u32,
        tags: u32,
        reserved: u32,
    ) -> Result<impl FnOnce(T) -> Queue<T>, NewError> {
        let limits = limits.checked()?;
        let sizes = [(slots, 1, Queue::MAX_SLOTS), (tags, 1, Queue::MAX_TAGS), (reserved, 0, tags.saturating_sub(1))];
        if sizes.iter().any(|(size, least, most)| size < least || size > most) {
            return Err(NewError::Size);
        }
        let (erased, freezer, tags) = BlockQueue::new(limits, slots, tags).map_err(|_| NewError::NoMemory)?;
        let waits = Waits::of(Held::new(freezer, tags.len()).ok_or(NewError::NoMemory)?);
        let places = Places::new(tags.len(), reserved as usize).ok_or(NewError::NoMemory)?;
        Ok(move |value| {
            static IDS: AtomicU64 = AtomicU64::new(0);
            let id = NonZeroU64::MIN.saturating_add(IDS.fetch_add(1, Relaxed));
            let (watch, pause, value) = (AtomicBool::new(false), Pause::new(), Value::of(value));
            let shared = Arc::new(Shared { id, watch, erased, places, waits, pause, value });
            for (number, (erased, place)) in tags.into_iter().zip(shared.places.all()).enumerate() {
                let state = TagState::new(erased.into_biased(limits), number, limits.into());
                place.home.fill(Parts { state, shared: Arc::clone(&shared) });
            }
            Queue { shared }
        })
    }

    /// Returns a free tag, for a thread that keeps one. Reserved tags are given out first. The queue may be frozen or dying.
    /// Dropping the tag gives it back.
    ///
    /// # Errors
    ///
    /// Returns [`EnterError::NoTag`] if no tag was free at some moment of the call.
    ///
    /// # Examples
    ///
    /// ```
    /// # use freeze_queue::{EnterError, Limits, Queue};
    /// # let queue = Queue::builder(Limits::of_hardware(64)).tags(1).build()?;
    /// let tag = queue.tag()?;
    /// assert_eq!(queue.tag().unwrap_err(), EnterError::NoTag);
    /// drop(tag);
    /// assert!(queue.tag().is_ok());
    /// # Ok::<(), Box<dyn std::error::Error>>(())
    /// ```
    pub fn tag(&self) -> Result<Tag<T>, EnterError> {
        self.shared.try_tag().ok_or(EnterError::NoTag)
    }

    /// Returns the number of tags, including reserved ones.
    #[must_use]
    pub fn tags(&self) -> u32 {
        u32::try_from(self.shared.places.all().len()).unwrap_or(u32::MAX)
    }

    /// Returns the number of slots.
    #[must_use]
    pub fn slots(&self) -> u32 {
        self.shared.erased.slots()
    }

    /// Ends a live or dying queue once all its tags have been given back, and returns its value and last state. This call
    /// doesn't allocate. Linux: `blk_mq_destroy_queue`.
    ///
    /// `remove` may sleep briefly until another thread has finished giving back a tag or thawing an owned freeze. It may be
    /// called from a waker.
    ///
    /// # Errors
    ///
    /// Returns [`RemoveError`], and hands the queue back.
    ///
    /// # Panics
    ///
    /// Panics in the same case as [`freeze`](Queue::freeze).
    ///
    /// # Examples
    ///
    /// ```
    /// # use freeze_queue::{Limits, Queue, RemoveError};
    /// let queue = Queue::builder(Limits::of_hardware(64)).slots(1).tags(1).build()?;
    /// let tag = queue.tag()?;
    /// let refused = queue.remove().unwrap_err();
    /// assert_eq!(refused.reason, RemoveError::TagsOut);
    /// let queue = refused.value;
    /// drop(tag);
    /// assert_eq!(queue.remove()?.limits, Limits::of_hardware(64));
    /// # Ok::<(), Box<dyn std::error::Error>>(())
    /// ```
    pub fn remove(self) -> Result<Final<T>, HandedBack<Queue<T>, RemoveError>> {
        if let Err(reason) = self.take_all_back() {
            return Err(HandedBack { value: self, reason });
        }
        let mut shared = Arc::clone(&self.shared);
        drop(self);
        // Another thread that gave a tag back, or ended a freeze, may have its share for some steps more, in which it calls no waker. A
        // sleep in place of a yield lets a thread of a lower real-time priority take them.
        let Shared { erased, waits, value, .. } = loop {
            match Arc::try_unwrap(shared) {
                Ok(alone) => break alone,
                Err(again) => shared = again,
            }
            sleep(MOST_PATIENCE);
        };
        let held = waits.into_held();
        let limits = held.freezer.limits().into();
        let left = held.remove(erased);
        Ok(Final { kills: left.kills, releases: left.releases, limits, value: value.into_inner() })
    }

    /// Takes all tags back, or takes none and returns why.
    fn take_all_back(&self) -> Result<(), RemoveError> {
        let (shared, places) = (&self.shared, self.shared.places.all());
        let mut held = shared.waits.lock();
        if held.shares > 0 {
            return Err(RemoveError::Shared);
        }
        if !places.iter().all(|place| place.home.is_here()) {
            return Err(RemoveError::TagsOut);
        }
        held.shut(&shared.erased, &shared.pause);
        held.is_closed = true;
        for tag in places.iter().filter_map(|place| place.home.take_or_ask()) {
            held.take_back(&shared.erased, tag.end().state.erased);
        }
        Ok(())
    }

    /// Switches the queue to one shared counter: requests of unbiased tags count there. This is slower for several threads, but a
    /// freeze has no slots to close and sum. Tags are biased as before. A frozen queue does so once it is thawed. Linux:
    /// `percpu_ref_switch_to_atomic_sync` of `q_usage_counter`.
    ///
    /// ```
    /// # use freeze_queue::{Limits, Queue};
    /// # let queue = Queue::builder(Limits::of_hardware(64)).slots(4).tags(4).build()?;
    /// queue.switch_to_atomic();
    /// # Ok::<(), Box<dyn std::error::Error>>(())
    /// ```
    pub fn switch_to_atomic(&self) {
        self.shared.waits.lock().freezer.mode(&self.shared.erased, Mode::Atomic);
    }

    /// Makes the queue count requests on its slots, as a new queue does. A frozen queue does so once it is thawed. Linux:
    /// `percpu_ref_switch_to_percpu` of `q_usage_counter`.
    ///
    /// ```
    /// # use freeze_queue::{Limits, Queue};
    /// # let queue = Queue::builder(Limits::of_hardware(64)).slots(4).tags(4).build()?;
    /// queue.switch_to_slots();
    /// # Ok::<(), Box<dyn std::error::Error>>(())
    /// ```
    pub fn switch_to_slots(&self) {
        self.shared.waits.lock().freezer.mode(&self.shared.erased, Mode::Slots);
    }

    /// Returns the limits at some moment of the call. (The limits of an entered request don't change.)
    ///
    /// ```
    /// # use freeze_queue::{Limits, Queue};
    /// let queue = Queue::builder(Limits::of_hardware(64).with_max(0)).slots(1).tags(1).build()?;
    /// assert_eq!(queue.limits(), Limits::of_hardware(64));
    /// # Ok::<(), Box<dyn std::error::Error>>(())
    /// ```
    #[must_use]
    pub fn limits(&self) -> Limits {
        self.shared.waits.lock().freezer.limits().into()
    }

    /// Returns the number of freezes that weren't thawed at some moment of the call. It is 0 if no freeze is held, even if the
    /// queue is dying. Linux: `mq_freeze_depth`.
    ///
    /// ```
    /// # use freeze_queue::{Limits, Queue};
    /// # let queue = Queue::builder(Limits::of_hardware(64)).slots(1).tags(1).build()?;
    /// let frozen = queue.freeze()?;
    /// assert_eq!(queue.depth(), 1);
    /// drop(frozen);
    /// assert_eq!(queue.depth(), 0);
    /// # Ok::<(), Box<dyn std::error::Error>>(())
    /// ```
    #[must_use]
    pub fn depth(&self) -> u32 {
        self.shared.waits.lock().depth()
    }

    /// Returns whether the queue was frozen or dying, and drained, at some moment of the call. Linux: `percpu_ref_is_zero` in
    /// `blk_mq_freeze_queue_wait`.
    ///
    /// ```
    /// # use freeze_queue::{Limits, Queue};
    /// # let queue = Queue::builder(Limits::of_hardware(64)).slots(1).tags(1).build()?;
    /// assert!(!queue.is_drained());
    /// let _frozen = queue.freeze()?;
    /// assert!(queue.is_drained());
    /// # Ok::<(), Box<dyn std::error::Error>>(())
    /// ```
    #[must_use]
    pub fn is_drained(&self) -> bool {
        self.shared.is_drained()
    }

    /// Returns counts of what the queue has done since it was made.
    ///
    /// ```
    /// # use freeze_queue::{Limits, Queue};
    /// # let queue = Queue::builder(Limits::of_hardware(64)).slots(1).tags(1).build()?;
    /// queue.update(|limits| limits.with_max(8))?;
    /// let stats = queue.stats();
    /// assert_eq!((stats.freezes, stats.updates, stats.waited), (1, 1, 0));
    /// # Ok::<(), Box<dyn std::error::Error>>(())
    /// ```
    #[must_use]
    pub fn stats(&self) -> Stats {
        let held = self.shared.waits.lock();
        let stats = held.counts.so_far(held.is_dying);
        drop(held);
        let free_tags = self.shared.places.free();
        let biased = self.shared.erased.biased.load(SeqCst);
        Stats { free_tags, biased, membarrier: fences::has_heavy_fence(), ..stats }
    }

    /// Returns whether the queue was marked dying ([`mark_dying`](Queue::mark_dying)). Linux: `blk_queue_dying`.
    ///
    /// ```
    /// # use freeze_queue::{Limits, Queue};
    /// # let queue = Queue::builder(Limits::of_hardware(64)).slots(1).tags(1).build()?;
    /// queue.mark_dying();
    /// assert!(queue.is_dying());
    /// # Ok::<(), Box<dyn std::error::Error>>(())
    /// ```
    #[must_use]
    pub fn is_dying(&self) -> bool {
        self.shared.waits.lock().is_dying
    }

    /// Returns a unique id, starting at 1.
    ///
    /// ```
    /// # use freeze_queue::{Limits, Queue};
    /// let here = Queue::builder(Limits::of_hardware(64)).slots(1).tags(1).build()?;
    /// let there = Queue::builder(Limits::of_hardware(64)).slots(1).tags(1).build()?;
    /// assert_ne!(here.id(), there.id());
    /// # Ok::<(), Box<dyn std::error::Error>>(())
    /// ```
    #[inline]
    #[must_use]
    pub fn id(&self) -> u64 {
        self.shared.id.get()
    }
}

impl<T> Drop for Queue<T> {
    fn drop(&mut self) {
        self.shared.close();
    }
}
