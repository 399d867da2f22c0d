// A stand-in for the kit's pointers, written by hand: tools/erase leaves it alone.
//! Pointers whose making may be refused, and the standard streams as files. Rust has both, but not in safe and stable calls, so
//! this stand-in has `unsafe`.
//!
//! Its argument is the one for std's `Box`, `Rc` and `Arc`, in three parts. *Room*: [`made`] asks the global allocator for room of
//! a value's own layout and writes the value, which is what `Box::from_raw` asks for. *Life*: a [`Counted`] points at room that
//! is freed by the last one alone, and a count is as many as there are pointers: it begins at 1, a clone adds one, a drop
//! takes one away. *Threads*: the count of an [`Arc`] is atomic; a drop releases, and the last acquires, so whatever another
//! thread did with the value is before its end.
#![allow(unsafe_code)]

use crate::erased::fallible::AllocError;
use std::alloc::{Layout, alloc};
use std::cell::Cell;
use std::fmt;
use std::fs::File;
use std::marker::PhantomData;
use std::mem::ManuallyDrop;
use std::ops::Deref;
use std::os::fd::FromRawFd;
use std::ptr::NonNull;
use std::sync::atomic::{AtomicUsize, Ordering};

/// A `Box` of a value; `AllocError` if its memory is refused.
fn made<T>(value: T) -> Result<Box<T>, AllocError> {
    let layout = Layout::new::<T>();
    if layout.size() == 0 {
        return Ok(Box::new(value));
    }
    // SAFETY: the layout isn't of size 0.
    let room = NonNull::new(unsafe { alloc(layout) }.cast::<T>()).ok_or(AllocError)?;
    // SAFETY: the room is fresh, aligned and large enough for the value.
    unsafe { room.write(value) };
    // SAFETY: the global allocator gave the room for this layout, and it has a value, which nothing else points at.
    Ok(unsafe { Box::from_raw(room.as_ptr()) })
}

/// The making of a `Box`, which may be refused.
pub trait TryBox<T>: Sized {
    /// A `Box` of this value.
    fn try_from_value(value: T) -> Result<Self, AllocError>;
}

impl<T> TryBox<T> for Box<T> {
    fn try_from_value(value: T) -> Result<Box<T>, AllocError> {
        made(value)
    }
}

/// How many point at a value.
pub trait Count {
    /// One.
    fn one() -> Self;
    /// One more, at most `isize::MAX`: pointers that were forgotten count too.
    fn add(&self);
    /// One less. Whether that was the last.
    fn remove(&self) -> bool;
    /// Whether there is one.
    fn is_one(&self) -> bool;
}

/// A greater count has its top bit set, which is the cheapest to look at.
const MOST: usize = isize::MAX as usize;

impl Count for AtomicUsize {
    fn one() -> AtomicUsize {
        AtomicUsize::new(1)
    }

    #[inline]
    fn add(&self) {
        assert!(self.fetch_add(1, Ordering::Relaxed) <= MOST, "too many pointers");
    }

    #[inline]
    fn remove(&self) -> bool {
        let is_last = self.fetch_sub(1, Ordering::Release) == 1;
        if is_last {
            // Not a fence, which the thread sanitizer doesn't see.
            self.load(Ordering::Acquire);
        }
        is_last
    }

    #[inline]
    fn is_one(&self) -> bool {
        self.load(Ordering::Acquire) == 1
    }
}

impl Count for Cell<usize> {
    fn one() -> Cell<usize> {
        Cell::new(1)
    }

    #[inline]
    fn add(&self) {
        assert!(self.get() <= MOST, "too many pointers");
        self.set(self.get() + 1);
    }

    #[inline]
    fn remove(&self) -> bool {
        self.set(self.get() - 1);
        self.get() == 0
    }

    #[inline]
    fn is_one(&self) -> bool {
        self.get() == 1
    }
}

struct Inner<T, C> {
    count: C,
    value: T,
}

/// A value that several point at, and the last frees.
pub struct Counted<T, C: Count> {
    inner: NonNull<Inner<T, C>>,
    owns: PhantomData<Inner<T, C>>,
}

/// A value that several point at in one thread.
pub type Rc<T> = Counted<T, Cell<usize>>;

/// A value that several threads point at.
pub type Arc<T> = Counted<T, AtomicUsize>;

// SAFETY: as for std's Arc: a thread that has a pointer may read the value, and drop it if the pointer is the last.
unsafe impl<T: Send + Sync> Send for Arc<T> {}
// SAFETY: a reference to a pointer lets another thread clone it, so this asks for the same.
unsafe impl<T: Send + Sync> Sync for Arc<T> {}

impl<T, C: Count> Counted<T, C> {
    /// The first pointer at a value.
    #[inline]
    pub fn try_new(value: T) -> Result<Self, AllocError> {
        let inner = made(Inner { count: C::one(), value })?;
        Ok(Counted { inner: NonNull::from(Box::leak(inner)), owns: PhantomData })
    }

    #[inline]
    fn inner(&self) -> &Inner<T, C> {
        // SAFETY: the room is freed with the last pointer, and this is one. It is written by the only one alone.
        unsafe { self.inner.as_ref() }
    }

    /// The value, to be changed, if this is the only pointer.
    #[inline]
    pub fn get_mut(this: &mut Self) -> Option<&mut T> {
        if !this.inner().count.is_one() {
            return None;
        }
        // SAFETY: this is the only pointer, and it is borrowed alone for as long as the value is.
        Some(unsafe { &mut this.inner.as_mut().value })
    }
}

impl<T, C: Count> Clone for Counted<T, C> {
    #[inline]
    fn clone(&self) -> Self {
        self.inner().count.add();
        Counted { inner: self.inner, owns: PhantomData }
    }
}

impl<T, C: Count> Deref for Counted<T, C> {
    type Target = T;

    #[inline]
    fn deref(&self) -> &T {
        &self.inner().value
    }
}

impl<T, C: Count> Drop for Counted<T, C> {
    #[inline]
    fn drop(&mut self) {
        if self.inner().count.remove() {
            // SAFETY: this was the last pointer, and the room was a Box's.
            drop(unsafe { Box::from_raw(self.inner.as_ptr()) });
        }
    }
}

impl<T: fmt::Debug, C: Count> fmt::Debug for Counted<T, C> {
    fn fmt(&self, f: &mut fmt::Formatter<'_>) -> fmt::Result {
        (**self).fmt(f)
    }
}

/// A standard stream by its number, 0 to 2. It is never closed.
pub(crate) fn open_stream(number: i32) -> ManuallyDrop<File> {
    // SAFETY: Rust's runtime sees to it that these numbers are open when `main` begins, and no file here closes one. If one
    // is closed all the same, each call on it is refused.
    ManuallyDrop::new(unsafe { File::from_raw_fd(number) })
}
