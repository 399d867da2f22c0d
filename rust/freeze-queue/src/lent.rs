//! A value that one holder at a time has, and that can come home from any thread. This is one of the files of this crate
//! with `unsafe`. Taking it is one exchange, and bringing it home another. (A mutex of std takes two for each, and its guard
//! stays on its thread.) The memory of such values is freed once each is home for good.
//!
//! Only the step that finds the value at home, and leaves it out, makes a [`Lent`]. The `Lent` is gone before the step that
//! leaves the value at home. So there is one at a time, and a value that isn't brought back stays out forever. Each step is
//! sequentially consistent. A home is found only once it has a value, and a `Lent` that takes the value away isn't brought back:
//! so there is a value as long as there is a `Lent`.
#![expect(unsafe_code, reason = "the compiler can't know that there is one `Lent` at a time")]
use crate::sync::AtomicU32;
use std::cell::UnsafeCell;
use std::mem::ManuallyDrop;
use std::ops::{Deref, DerefMut};
use std::ptr::NonNull;
use std::sync::atomic::Ordering::SeqCst;

const HERE: u32 = 0;
const OUT: u32 = 1;
/// Out, and asked for.
const ASKED: u32 = 2;
/// There is no value yet, or it was taken away for good.
const EMPTY: u32 = 3;

/// The place of a value that is lent.
pub(crate) struct Home<T> {
    state: AtomicU32,
    value: UnsafeCell<Option<T>>,
}

// SAFETY: the value is reached by the one `Lent`, which threads share only if they may share a `T`.
unsafe impl<T: Send> Sync for Home<T> {}

/// A value that is out, for one holder. It doesn't borrow its `Home`, which outlives it.
#[must_use = "a value that isn't brought home stays out"]
pub(crate) struct Lent<T>(NonNull<Home<T>>);

// SAFETY: it is as a `&mut T`: one holder has it, and lends it as often as it likes.
unsafe impl<T: Send> Send for Lent<T> {}
// SAFETY: the same.
unsafe impl<T: Sync> Sync for Lent<T> {}

impl<T> Home<T> {
    /// A home that has no value yet.
    pub(crate) fn empty() -> Home<T> {
        Home { state: AtomicU32::new(EMPTY), value: UnsafeCell::new(None) }
    }

    /// Puts a value into a home that is empty.
    pub(crate) fn fill(&self, value: T) {
        let found = self.state.swap(OUT, SeqCst);
        assert_eq!(found, EMPTY, "a home is filled once");
        // SAFETY: this call made the home's only step from empty, so nobody else reaches the value before it is home.
        unsafe { *self.value.get() = Some(value) };
        self.state.store(HERE, SeqCst);
    }

    /// Whether the value was home at some moment of the call.
    #[inline]
    pub(crate) fn is_here(&self) -> bool {
        self.state.load(SeqCst) == HERE
    }

    /// Whether the value was out at some moment of the call: it had neither come home nor ended.
    pub(crate) fn is_out(&self) -> bool {
        matches!(self.state.load(SeqCst), OUT | ASKED)
    }

    /// The value, if it is home.
    #[inline]
    pub(crate) fn take(&self) -> Option<Lent<T>> {
        self.state.compare_exchange(HERE, OUT, SeqCst, SeqCst).ok().map(|_| Lent(NonNull::from(self)))
    }

    /// The value, if it is home. From now on it is asked for, until it is brought.
    pub(crate) fn take_or_ask(&self) -> Option<Lent<T>> {
        if self.state.swap(ASKED, SeqCst) == HERE { Some(Lent(NonNull::from(self))) } else { None }
    }
}

impl<T> Lent<T> {
    #[inline]
    fn home(&self) -> &Home<T> {
        // SAFETY: a home is freed by `free` alone, once its value is home.
        unsafe { self.0.as_ref() }
    }

    /// Brings the value home. If it is asked for, returns it instead.
    #[inline]
    pub(crate) fn bring_unless_asked(self) -> Option<Self> {
        self.home().state.compare_exchange(OUT, HERE, SeqCst, SeqCst).is_err().then_some(self)
    }

    /// Brings the value home.
    pub(crate) fn bring(self) {
        self.home().state.store(HERE, SeqCst);
    }

    /// Takes the value away for good, and leaves its home empty.
    pub(crate) fn end(self) -> T {
        let value = self.take_out();
        self.home().state.store(EMPTY, SeqCst);
        value
    }

    /// Drops the value, whose home counts it as out forever.
    pub(crate) fn strand(self) {
        drop(self.take_out());
    }

    /// The value, which is gone from its home. The caller lets this `Lent` go.
    fn take_out(&self) -> T {
        // SAFETY: there is no other `Lent`, and this one is used no more.
        let value = unsafe { &mut *self.home().value.get() };
        // SAFETY: a home that lends has a value.
        unsafe { value.take().unwrap_unchecked() }
    }
}

impl<T> Deref for Lent<T> {
    type Target = T;

    #[inline]
    fn deref(&self) -> &T {
        // SAFETY: there is no other `Lent`, and this one is borrowed.
        let value = unsafe { &*self.home().value.get() };
        // SAFETY: a home that lends has a value.
        unsafe { value.as_ref().unwrap_unchecked() }
    }
}

impl<T> DerefMut for Lent<T> {
    #[inline]
    fn deref_mut(&mut self) -> &mut T {
        // SAFETY: there is no other `Lent`, and this one is borrowed alone.
        let value = unsafe { &mut *self.home().value.get() };
        // SAFETY: a home that lends has a value.
        unsafe { value.as_mut().unwrap_unchecked() }
    }
}

/// Frees places in which values were lent, whose owner is dropped. Each value is home or has ended, and no thread has a share of the
/// queue by which it reaches a place.
pub(crate) fn free<T>(places: &mut ManuallyDrop<Vec<T>>) {
    // SAFETY: a step at a value is made by a thread with a share of the queue, or ends in leaving the value home with its share. The
    // last share is gone, so each step was made. It is called once, where the owner is dropped.
    unsafe { ManuallyDrop::drop(places) }
}
