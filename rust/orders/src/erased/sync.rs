//! A lock, a condition and an atomic number: each step is the scheduler's.

use crate::actor::{self, Object};
use crate::op::Op;
use std::cell::{Cell, RefCell};
use std::fmt::Debug;
use std::ops::{Deref, DerefMut};
use std::sync::atomic::Ordering;

/// A value behind a lock. An actor that runs again gets the value that the last holder of the lock left.
pub trait Guarded: Sized {
    /// A copy of all of it but what is the same for each actor.
    type Saved: Clone + Debug + 'static;
    /// The part that is the same for each actor.
    type Beside: Copy;

    fn save(self) -> (Self::Saved, Self::Beside);
    fn restore(saved: Self::Saved, beside: Self::Beside) -> Self;
}

impl<T: Clone + Debug + 'static> Guarded for T {
    type Saved = T;
    type Beside = ();

    fn save(self) -> (T, ()) {
        (self, ())
    }

    fn restore(saved: T, (): ()) -> T {
        saved
    }
}

#[derive(Debug)]
pub struct AtomicUsize {
    object: Object,
    value: Cell<u64>,
}

impl AtomicUsize {
    pub const fn new(value: usize) -> AtomicUsize {
        AtomicUsize { object: Object::new(), value: Cell::new(value as u64) }
    }

    fn step(&self, op: Op) -> usize {
        actor::step(&self.object, 0, &self.value, op) as usize
    }

    pub fn load(&self, _order: Ordering) -> usize {
        self.step(Op::Load)
    }

    pub fn fetch_add(&self, more: usize, _order: Ordering) -> usize {
        self.step(Op::Add(more as u64))
    }

    pub fn fetch_sub(&self, less: usize, _order: Ordering) -> usize {
        self.step(Op::Sub(less as u64))
    }
}

pub struct Mutex<T: Guarded> {
    object: Object,
    /// The word of the lock when the race starts.
    free: Cell<u64>,
    /// The value, until the race starts.
    first: RefCell<Option<T>>,
    beside: Cell<Option<T::Beside>>,
    /// The number of the value as this actor last had it.
    seen: Cell<u64>,
}

impl<T: Guarded> Debug for Mutex<T> {
    fn fmt(&self, f: &mut std::fmt::Formatter<'_>) -> std::fmt::Result {
        f.write_str("Mutex")
    }
}

impl<T: Guarded> Mutex<T> {
    pub const fn new(value: T) -> Mutex<T> {
        Mutex {
            object: Object::new(),
            free: Cell::new(1),
            first: RefCell::new(Some(value)),
            beside: Cell::new(None),
            seen: Cell::new(0),
        }
    }

    pub fn lock(&self) -> MutexGuard<'_, T> {
        if actor::is_at_once() {
            actor::step(&self.object, 0, &self.free, Op::Lock);
            let value = self.first.take();
            return MutexGuard { lock: self, value };
        }
        self.start();
        let found = actor::step(&self.object, 0, &self.free, Op::Lock);
        // A destructor that runs while the actor unwinds gets the value that the actor had last, and changes it to no effect.
        self.guard(if actor::is_ended() { self.seen.get() } else { found })
    }

    /// Numbers the value that the lock guards when the race starts.
    fn start(&self) {
        if let Some(value) = self.first.take() {
            self.note(value);
            self.free.set(self.seen.get() + 1);
        }
    }

    /// The number of a value that the lock guards from now on.
    fn note(&self, value: T) -> u64 {
        let (saved, beside) = value.save();
        self.beside.set(Some(beside));
        let number = actor::number_of(saved);
        self.seen.set(number);
        number
    }

    fn guard(&self, number: u64) -> MutexGuard<'_, T> {
        self.seen.set(number);
        let beside = self.beside.get().expect("a lock that was used");
        MutexGuard { lock: self, value: Some(T::restore(actor::guarded(number), beside)) }
    }

    pub fn into_inner(self) -> T {
        drop(self.lock());
        self.first.take().unwrap_or_else(|| {
            let beside = self.beside.get().expect("a lock that was used");
            T::restore(actor::guarded(self.seen.get()), beside)
        })
    }
}

pub struct MutexGuard<'a, T: Guarded> {
    lock: &'a Mutex<T>,
    /// None once it was given back.
    value: Option<T>,
}

impl<T: Guarded> Deref for MutexGuard<'_, T> {
    type Target = T;

    fn deref(&self) -> &T {
        self.value.as_ref().expect("a value")
    }
}

impl<T: Guarded> DerefMut for MutexGuard<'_, T> {
    fn deref_mut(&mut self) -> &mut T {
        self.value.as_mut().expect("a value")
    }
}

impl<T: Guarded> Drop for MutexGuard<'_, T> {
    fn drop(&mut self) {
        let (lock, Some(value)) = (self.lock, self.value.take()) else {
            return;
        };
        if actor::is_at_once() {
            lock.first.replace(Some(value));
            actor::step(&lock.object, 0, &lock.free, Op::Store(1));
        } else if !actor::is_ended() {
            let number = lock.note(value);
            actor::step(&lock.object, 0, &lock.free, Op::Store(number + 1));
        }
    }
}

#[derive(Debug)]
pub struct Condvar {
    object: Object,
    sleepers: Cell<u64>,
}

impl Condvar {
    pub const fn new() -> Condvar {
        Condvar { object: Object::new(), sleepers: Cell::new(0) }
    }

    fn step(&self, op: Op) -> u64 {
        actor::step(&self.object, 0, &self.sleepers, op)
    }

    pub fn wait<'a, T: Guarded>(&self, mut guard: MutexGuard<'a, T>) -> MutexGuard<'a, T> {
        let (of, bit) = (guard.lock, actor::bit());
        let guarded = of.note(guard.value.take().expect("a value"));
        let lock = actor::word_of(&of.object, 0, of.free.get());
        self.step(Op::Sleep { bit, lock, guarded });
        of.guard(self.step(Op::Wake { bit, lock }))
    }

    pub fn notify_one(&self) {
        self.step(Op::NotifyOne);
    }

    pub fn notify_all(&self) {
        self.step(Op::Store(0));
    }
}
