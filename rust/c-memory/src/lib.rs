//! Memory from C's `malloc`, `realloc` and `free` for the libraries for C, and pointers whose allocation may be refused.
//!
//! This file has all handwritten `unsafe` of these libraries, but that of the lanes (package freeze-queue-c) and the heavy fence (package
//! freeze-queue). Its argument has three parts, beside the instruction of [`trap`]. *Room*: C's `malloc` and `realloc` return
//! room of the requested size, aligned to 16 bytes, which belongs to the caller until it is freed; `posix_memalign` returns room that is
//! aligned as asked.
//! *Life*: the last [`Arc`] at a value frees its room; the count begins at 1, a clone adds one, a drop takes one away. *Threads*: the
//! count is atomic; a drop releases, and the last one acquires. Another thread's use of the value therefore comes before its end.
#![no_std]

extern crate alloc;

pub mod erased;

use alloc::alloc::alloc;
use alloc::boxed::Box;
use core::alloc::{GlobalAlloc, Layout};
use core::ffi::{c_int, c_void};
use core::fmt;
use core::marker::PhantomData;
use core::mem::ManuallyDrop;
use core::ops::Deref;
use core::ptr::{self, NonNull};
use core::sync::atomic::{AtomicUsize, Ordering};
use percpu_gate::erased::fallible::{AllocError, AllocFailed};

unsafe extern "C" {
    fn malloc(size: usize) -> *mut c_void;
    fn posix_memalign(at: *mut *mut c_void, align: usize, size: usize) -> c_int;
    fn realloc(at: *mut c_void, size: usize) -> *mut c_void;
    fn free(at: *mut c_void);
    fn abort() -> !;
}

/// The greatest alignment that `malloc` promises: C's `max_align_t` has it.
const ALIGNED: usize = 16;

/// C's memory, as Rust's allocator.
#[derive(Clone, Copy, Debug)]
pub struct Memory;

// SAFETY: room of a layout is as *Room* says, and null where it is refused. Freed or grown room came from `malloc`.
unsafe impl GlobalAlloc for Memory {
    #[inline]
    unsafe fn alloc(&self, layout: Layout) -> *mut u8 {
        if layout.align() > ALIGNED {
            return aligned(layout);
        }
        // SAFETY: any size may be asked for.
        unsafe { malloc(layout.size()) }.cast()
    }

    #[inline]
    unsafe fn dealloc(&self, at: *mut u8, _layout: Layout) {
        // SAFETY: the room came from `alloc` or `realloc`, and isn't freed yet, as the caller promises.
        unsafe { free(at.cast()) }
    }

    #[inline]
    unsafe fn realloc(&self, at: *mut u8, layout: Layout, size: usize) -> *mut u8 {
        if layout.align() > ALIGNED {
            return ptr::null_mut(); // no table grows
        }
        // SAFETY: the room came from `alloc` or `realloc`, and isn't freed yet, as the caller promises. The size isn't 0.
        unsafe { realloc(at.cast(), size) }.cast()
    }
}

/// Room that is aligned to more than `malloc` promises.
#[cold]
fn aligned(layout: Layout) -> *mut u8 {
    let mut at = ptr::null_mut();
    // SAFETY: the alignment is a power of two and a multiple of a pointer's size, and any size may be asked for.
    let refused = unsafe { posix_memalign(&raw mut at, layout.align(), layout.size()) };
    if refused == 0 { at.cast() } else { ptr::null_mut() }
}

/// Ends the program, where a promise of the code is broken.
pub fn end() -> ! {
    // SAFETY: it may be called anywhere, and doesn't return.
    unsafe { abort() }
}

/// Ends the program by one instruction. The function around it calls nothing for it, so it makes no frame on the stack.
#[inline]
pub fn trap() -> ! {
    #[cfg(target_arch = "x86_64")]
    // SAFETY: it is an invalid instruction, by which the system ends the program.
    unsafe {
        core::arch::asm!("ud2", options(noreturn, nomem, nostack))
    }
    #[cfg(not(target_arch = "x86_64"))]
    end()
}

/// The making of a `Box`, which may be refused.
pub trait TryBox<T>: Sized {
    /// A `Box` of this value; the value, if its memory is refused.
    ///
    /// # Errors
    ///
    /// The value, if there is no memory for it.
    fn try_from_value(value: T) -> Result<Self, AllocFailed<T>>;
}

impl<T> TryBox<T> for Box<T> {
    #[inline]
    fn try_from_value(value: T) -> Result<Box<T>, AllocFailed<T>> {
        let layout = Layout::new::<T>();
        if layout.size() == 0 {
            return Ok(Box::new(value));
        }
        // SAFETY: the layout isn't of size 0.
        let Some(room) = NonNull::new(unsafe { alloc(layout) }.cast::<T>()) else {
            return Err(AllocFailed { value });
        };
        // SAFETY: the room is fresh, aligned and large enough for the value.
        unsafe { room.write(value) };
        // SAFETY: the global allocator gave the room for this layout, and it has a value, which nothing else points at.
        Ok(unsafe { Box::from_raw(room.as_ptr()) })
    }
}

/// The most pointers at a value.
const MOST: usize = usize::MAX / 2;

struct Inner<T> {
    count: AtomicUsize,
    value: T,
}

/// A value that several threads point at, and the last frees.
pub struct Arc<T> {
    inner: NonNull<Inner<T>>,
    owns: PhantomData<Inner<T>>,
}

// SAFETY: as for std's Arc: a thread that has a pointer may read the value, and drop it if the pointer is the last.
unsafe impl<T: Send + Sync> Send for Arc<T> {}
// SAFETY: a reference to a pointer lets another thread clone it, so this asks for the same.
unsafe impl<T: Send + Sync> Sync for Arc<T> {}

impl<T> Arc<T> {
    /// The first pointer at a value.
    ///
    /// # Errors
    ///
    /// The value, if there is no memory for it.
    pub fn try_new(value: T) -> Result<Arc<T>, AllocFailed<T>> {
        match Box::try_from_value(Inner { count: AtomicUsize::new(1), value }) {
            Ok(inner) => Ok(Arc { inner: NonNull::from(Box::leak(inner)), owns: PhantomData }),
            Err(back) => Err(AllocFailed { value: back.value.value }),
        }
    }

    /// One more pointer at the value.
    ///
    /// # Errors
    ///
    /// If there are 2^63 pointers: those that were forgotten count too.
    pub fn try_clone(this: &Arc<T>) -> Result<Arc<T>, AllocError> {
        let count = &this.inner().count;
        if count.fetch_add(1, Ordering::Relaxed) > MOST {
            count.fetch_sub(1, Ordering::Relaxed);
            return Err(AllocError);
        }
        Ok(Arc { inner: this.inner, owns: PhantomData })
    }

    /// The value, if this is the only pointer at it.
    ///
    /// # Errors
    ///
    /// The pointer, if there is another.
    pub fn try_unwrap(this: Arc<T>) -> Result<T, Arc<T>> {
        let count = &this.inner().count;
        if count.compare_exchange(1, 0, Ordering::Acquire, Ordering::Relaxed).is_err() {
            return Err(this);
        }
        let this = ManuallyDrop::new(this);
        // SAFETY: this was the only pointer, and isn't dropped; the room was a Box's.
        let inner = unsafe { Box::from_raw(this.inner.as_ptr()) };
        Ok(inner.value)
    }

    #[inline]
    fn inner(&self) -> &Inner<T> {
        // SAFETY: the room is freed with the last pointer, and this is one.
        unsafe { self.inner.as_ref() }
    }
}

impl<T> Deref for Arc<T> {
    type Target = T;

    #[inline]
    fn deref(&self) -> &T {
        &self.inner().value
    }
}

impl<T> Drop for Arc<T> {
    #[inline]
    fn drop(&mut self) {
        if self.inner().count.fetch_sub(1, Ordering::Release) != 1 {
            return;
        }
        // Not a fence, which the thread sanitizer doesn't see.
        self.inner().count.load(Ordering::Acquire);
        // SAFETY: this was the last pointer, and the room was a Box's.
        drop(unsafe { Box::from_raw(self.inner.as_ptr()) });
    }
}

impl<T: fmt::Debug> fmt::Debug for Arc<T> {
    fn fmt(&self, f: &mut fmt::Formatter<'_>) -> fmt::Result {
        (**self).fmt(f)
    }
}
