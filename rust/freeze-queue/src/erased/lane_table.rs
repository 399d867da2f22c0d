// A stand-in for the kit's atomic_table, written by hand: tools/erase leaves it alone.
//! The table of biased lanes: the epoch, a word for each lane and for each cell, and what lies in the cells.
//!
//! In the sources each call is one atomic step, sequentially consistent. Here an owner's stores to its lane and its loads of the epoch are
//! weaker, and the freezer's heavy fence orders them with its own steps. Without a heavy fence the stores are sequentially consistent too.
//! Other crates compile this file over their own atomic number and fences. C code steps on lanes too (`include/freeze_queue/lane.h`).
#![allow(unsafe_code)] // a cell is reached by whoever took it

pub use super::fences::heavy_fence;
use super::{AtomicU64, fallible::AllocError, fences, past_the_end};
use alloc::vec::Vec;
use core::sync::atomic::Ordering::{self, Acquire, Relaxed, Release, SeqCst};
use core::{cell::UnsafeCell, marker::PhantomData, mem, ptr, sync::atomic};

/// The right to step on a table, which moves between threads by ownership. An owner's seat knows the word of its lane, if that is a light one.
pub struct Seat<S> {
    made_here: PhantomData<S>,
    lane: atomic::AtomicPtr<Word>,
}

/// The epoch, on a line that requests only read.
#[repr(align(128))]
struct Epoch(AtomicU64);

/// A word of a lane or of its cell, on a line of its own: so lanes lie 128 bytes apart.
#[repr(C, align(64))]
pub struct Word {
    word: AtomicU64,
    /// Of a lane: what C code keeps of it. Nothing else reads or writes it.
    _of_c: UnsafeCell<[u64; 7]>,
}

/// The words and cells, as threads share them.
pub struct Shared<S> {
    epoch: Epoch,
    /// Each word but the first is in `light` if the heavy fence orders the owners' steps, else in `heavy`.
    light: Vec<Word>,
    heavy: Vec<Word>,
    cells: Vec<UnsafeCell<S>>,
}

// SAFETY: the thread that took a cell by a step on its word reaches it until it gives it back; a lane's owner reaches what C keeps of it.
unsafe impl<S: Send> Sync for Shared<S> {}

impl<S> Shared<S> {
    /// Word 0 is the epoch. The words 2i + 1 and 2i + 2 are those of lane i and of its cell.
    #[inline(always)]
    #[track_caller]
    fn at(&self, word: usize) -> &AtomicU64 {
        if word == 0 {
            return &self.epoch.0;
        }
        match self.light.get(word - 1).or_else(|| self.heavy.get(word - 1)) {
            Some(found) => &found.word,
            None => past_the_end(word, self.light.len() + self.heavy.len() + 1),
        }
    }

    /// Loads a word.
    #[inline(always)]
    #[track_caller]
    pub fn load(&self, _seat: &mut Seat<S>, word: usize) -> u64 {
        self.at(word).load(SeqCst)
    }

    /// Loads a word behind a store by `store_relaxed` or `store_release`, which keep their order with it.
    #[inline(always)]
    #[track_caller]
    pub fn load_acquire(&self, _seat: &mut Seat<S>, word: usize) -> u64 {
        self.at(word).load(Acquire)
    }

    /// Stores a word.
    #[inline(always)]
    #[track_caller]
    pub fn store(&self, _seat: &mut Seat<S>, word: usize, new: u64) {
        self.at(word).store(new, SeqCst);
    }

    /// Stores a word before a load that the heavy fence orders with it.
    #[inline(always)]
    #[track_caller]
    pub fn store_relaxed(&self, seat: &mut Seat<S>, word: usize, new: u64) {
        self.store_lightly(seat, word, new, Relaxed);
    }

    /// Stores a word before such a load, and behind all that this thread did before.
    #[inline(always)]
    #[track_caller]
    pub fn store_release(&self, seat: &mut Seat<S>, word: usize, new: u64) {
        self.store_lightly(seat, word, new, Release);
    }

    /// Stores the word of an owner's lane before such a load, in this order if there is a heavy fence.
    #[inline(always)]
    #[track_caller]
    fn store_lightly(&self, seat: &mut Seat<S>, word: usize, new: u64, order: Ordering) {
        // SAFETY: the owner of a lane of this table has parked in it, and the table is borrowed.
        let Some(lane) = (unsafe { seat.lane.get_mut().as_ref() }) else { return self.store_and_fence(word, new) };
        debug_assert!(self.light.get(word - 1).is_some_and(|it| ptr::eq(it, lane)), "another word");
        lane.word.store(new, order);
        fences::light_fence();
    }

    /// Stores a word before such a load, if there is no heavy fence. On x86-64 an exchange is a full barrier.
    #[cold]
    #[inline(never)]
    #[track_caller]
    fn store_and_fence(&self, word: usize, new: u64) {
        self.at(word).swap(new, SeqCst);
        let fence = if cfg!(all(target_arch = "x86_64", not(miri))) { atomic::compiler_fence } else { atomic::fence };
        fence(SeqCst);
    }

    /// Stores `new` if the word is `old`. Returns the value found: `old` if and only if `new` was stored.
    #[inline(always)]
    #[track_caller]
    pub fn compare_exchange(&self, _seat: &mut Seat<S>, word: usize, old: u64, new: u64) -> u64 {
        self.at(word).compare_exchange(old, new, SeqCst, SeqCst).unwrap_or_else(|found| found)
    }

    /// Puts a value into a cell that this seat took, and returns what lay there.
    #[track_caller]
    pub fn exchange(&self, seat: &mut Seat<S>, cell: usize, new: S) -> S {
        *seat.lane.get_mut() = self.light.get(cell * 2).map_or(ptr::null_mut(), |it| ptr::from_ref(it).cast_mut());
        // SAFETY: the seat took the cell by a step on its word, so no other thread reaches it until this one gives it back.
        mem::replace(unsafe { &mut *self.cells[cell].get() }, new)
    }

    /// Returns the word of a lane, and that of the epoch. `None` if there is no heavy fence.
    pub fn lane(&self, lane: usize) -> Option<(&Word, &AtomicU64)> {
        self.light.get(lane * 2).map(|word| (word, &self.epoch.0))
    }

    /// Loads a word with a new seat.
    #[track_caller]
    pub fn load_new_seat(&self, word: usize) -> (u64, Seat<S>) {
        (self.at(word).load(SeqCst), Seat { made_here: PhantomData, lane: atomic::AtomicPtr::default() })
    }
}

/// A table, which owns its words and cells.
pub struct Table<S> {
    pub shared: Shared<S>,
}

impl<T> Table<Option<T>> {
    /// A table of these words and of so many empty cells, and its first seat. `AllocError` if memory is refused.
    pub fn vacant(words: &[u64], cells: usize) -> Result<(Table<Option<T>>, Seat<Option<T>>), AllocError> {
        let mut lines = Vec::new();
        lines.try_reserve_exact(words.len() - 1)?;
        lines.extend(words[1..].iter().map(|it| Word { word: AtomicU64::new(*it), _of_c: UnsafeCell::new([0; 7]) }));
        let mut made = Vec::new();
        made.try_reserve_exact(cells)?;
        made.resize_with(cells, || UnsafeCell::new(None));
        let (light, heavy) = if fences::has_heavy_fence() { (lines, Vec::new()) } else { (Vec::new(), lines) };
        let shared = Shared { epoch: Epoch(AtomicU64::new(words[0])), light, heavy, cells: made };
        Ok((Table { shared }, Seat { made_here: PhantomData, lane: atomic::AtomicPtr::default() }))
    }
}
