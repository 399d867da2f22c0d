//! The value of a queue: one of the files of this crate with `unsafe`. A request lends it for as long as the request is borrowed. A
//! freeze lends it alone, for as long as the freeze is borrowed, under a lock, since freezes nest. The two never meet, by laws of the
//! queue, which are proved of its sources:
//!
//! - A queue isn't drained while a request is in flight. A leaked request is in flight forever.
//! - A queue that is frozen and drained lets no request in before each freeze is thawed. A leaked freeze is never thawed.
//! - A leave happens before the load that sees the drain, and a thaw before a later entry: each step of the gate is sequentially consistent. A biased
//!   request leaves by a release store, which the freezer's look finds behind its fence, and enters by an acquire load of the epoch.
#![expect(unsafe_code, reason = "the compiler can't know the laws of the queue")]
use crate::frozen::OwnedFrozen;
use crate::locked::{Lock, Locked};
use crate::owned::OwnedRequest;
use crate::request::Request;
use std::cell::UnsafeCell;
use std::fmt;
use std::ops::{Deref, DerefMut};
use std::ptr;
use std::sync::atomic::{AtomicUsize, Ordering::Relaxed};

/// The value of a queue, and a lock for its freezes. `holder` is the thread that has the lock, or 0.
pub(crate) struct Value<T> {
    lock: Lock<()>,
    holder: AtomicUsize,
    cell: UnsafeCell<T>,
}

/// A number of this thread that no other thread has while this one runs.
fn this_thread() -> usize {
    thread_local!(static PLACE: u8 = const { 0 });
    PLACE.with(|place| ptr::from_ref(place).addr())
}

// SAFETY: threads share `&T` under their requests, and a thread that froze the queue may change a T that another thread made.
unsafe impl<T: Send + Sync> Sync for Value<T> {}

impl<T> Value<T> {
    pub(crate) fn of(value: T) -> Value<T> {
        Value { lock: Lock::new(()), holder: AtomicUsize::new(0), cell: UnsafeCell::new(value) }
    }

    /// The value of a frozen queue, for who has its lock.
    fn alone<'f>(&'f self, lock: Locked<'f, ()>) -> Alone<'f, T> {
        self.holder.store(this_thread(), Relaxed);
        Alone { value: self, _lock: lock }
    }

    pub(crate) fn into_inner(self) -> T {
        self.cell.into_inner()
    }
}

impl<T> Deref for Request<'_, T> {
    type Target = T;

    #[inline]
    fn deref(&self) -> &T {
        // SAFETY: the queue isn't drained while this request is borrowed, so no `Alone` is there.
        unsafe { &*self.queue().value.cell.get() }
    }
}

impl<T> Deref for OwnedRequest<T> {
    type Target = T;

    #[inline]
    fn deref(&self) -> &T {
        // SAFETY: the same.
        unsafe { &*self.queue().value.cell.get() }
    }
}

impl<T> OwnedFrozen<T> {
    /// Lends the value as `&mut T`. Since freezes nest, this call waits while another freeze has the value.
    ///
    /// After an [`Alone`] was leaked (`mem::forget`) every `lock` on another thread blocks forever; removing the queue still returns the
    /// value. A task that may move between threads can't hold an `Alone` over an `.await`: it isn't `Send`.
    ///
    /// # Panics
    ///
    /// Panics on a thread that still holds an [`Alone`] of this queue.
    ///
    /// # Examples
    ///
    /// ```
    /// # use freeze_queue::{Limits, Queue};
    /// let queue = Queue::builder(Limits::of_hardware(64)).slots(1).tags(1).value(vec![1, 2]).build()?;
    /// let (frozen, nested) = (queue.freeze()?, queue.freeze()?);
    /// frozen.lock().push(3);
    /// assert_eq!(*nested.lock(), [1, 2, 3]);
    /// # drop((frozen, nested));
    /// # Ok::<(), Box<dyn std::error::Error>>(())
    /// ```
    #[must_use = "the value is released when the guard is dropped"]
    pub fn lock(&self) -> Alone<'_, T> {
        let value = &self.queue().value;
        assert!(value.holder.load(Relaxed) != this_thread(), "this thread has the value of this queue already");
        value.alone(value.lock.lock())
    }

    /// Lends the value as [`lock`](OwnedFrozen::lock) does, or returns None if another freeze has it.
    ///
    /// ```
    /// # use freeze_queue::{Limits, Queue};
    /// # let queue = Queue::builder(Limits::of_hardware(64)).slots(1).tags(1).value(7).build()?;
    /// let (frozen, nested) = (queue.freeze()?, queue.freeze()?);
    /// let value = frozen.lock();
    /// assert!(nested.try_lock().is_none());
    /// drop(value);
    /// assert_eq!(nested.try_lock().as_deref(), Some(&7));
    /// # drop((frozen, nested));
    /// # Ok::<(), Box<dyn std::error::Error>>(())
    /// ```
    #[must_use = "the value is released when the guard is dropped"]
    pub fn try_lock(&self) -> Option<Alone<'_, T>> {
        let value = &self.queue().value;
        Some(value.alone(value.lock.try_lock()?))
    }
}

/// The value of a frozen queue, for one freeze at a time: [`OwnedFrozen::lock`]. Like a guard of std's mutex it stays on its thread.
#[must_use = "the value is released when the guard is dropped"]
pub struct Alone<'f, T> {
    value: &'f Value<T>,
    _lock: Locked<'f, ()>,
}

/// The thread is forgotten before the lock is let go.
impl<T> Drop for Alone<'_, T> {
    fn drop(&mut self) {
        self.value.holder.store(0, Relaxed);
    }
}

impl<T> Deref for Alone<'_, T> {
    type Target = T;

    fn deref(&self) -> &T {
        // SAFETY: the queue is frozen and drained, and this freeze has the lock, so nobody changes the value.
        unsafe { &*self.value.cell.get() }
    }
}

impl<T> DerefMut for Alone<'_, T> {
    fn deref_mut(&mut self) -> &mut T {
        // SAFETY: the queue is frozen and drained, and this freeze has the lock, so nobody else reaches the value.
        unsafe { &mut *self.value.cell.get() }
    }
}

impl<T: fmt::Debug> fmt::Debug for Alone<'_, T> {
    fn fmt(&self, f: &mut fmt::Formatter<'_>) -> fmt::Result {
        f.debug_tuple("Alone").field(&**self).finish()
    }
}
