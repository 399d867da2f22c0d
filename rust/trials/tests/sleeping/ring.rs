//! The ring of `blkq`. It counts the looks of each thread, for an item or for room, and can hold a thread at one of them.

use blkq::erased::crossbeam_queue as rings;
pub use blkq::erased::crossbeam_queue::Pass;
use blkq::erased::fallible::AllocError;
use std::cell::Cell;
use std::ops::Deref;
use std::thread::LocalKey;

/// What a thread does before each look, which is given by its number.
type Call = Box<dyn Fn(u64)>;

thread_local! {
    static LOOKS: Cell<u64> = const { Cell::new(0) };
    static BEFORE: Cell<Option<Call>> = const { Cell::new(None) };
    /// How often this thread looked for room.
    static PUSHES: Cell<u64> = const { Cell::new(0) };
    static BEFORE_PUSH: Cell<Option<Call>> = const { Cell::new(None) };
    static NO_ROOM: Cell<Option<Call>> = const { Cell::new(None) };
}

/// Calls this before each look of this thread for an item; they are counted from 1 on.
pub fn before_looks(call: impl Fn(u64) + 'static) {
    LOOKS.set(0);
    BEFORE.set(Some(Box::new(call)));
}

/// Calls the first before each look of this thread for room, and the second once it found none; they are counted from 1 on.
pub fn at_pushes(before: impl Fn(u64) + 'static, no_room: impl Fn(u64) + 'static) {
    PUSHES.set(0);
    BEFORE_PUSH.set(Some(Box::new(before)));
    NO_ROOM.set(Some(Box::new(no_room)));
}

/// Returns how often this thread looked for an item since the last call of this.
pub fn looks() -> u64 {
    LOOKS.replace(0)
}

/// Counts a look of this thread. Returns its number.
fn next_look(looks: &'static LocalKey<Cell<u64>>) -> u64 {
    looks.set(looks.get() + 1);
    looks.get()
}

fn call(at: &'static LocalKey<Cell<Option<Call>>>, look: u64) {
    if let Some(call) = at.take() {
        call(look);
        at.set(Some(call));
    }
}

pub struct RuledArrayQueue<T>(rings::RuledArrayQueue<T>);

impl<T> RuledArrayQueue<T> {
    pub fn ruled(room: usize) -> Result<(RuledArrayQueue<T>, Pass<T>), AllocError> {
        let (ring, pass) = rings::RuledArrayQueue::ruled(room)?;
        Ok((RuledArrayQueue(ring), pass))
    }

    pub fn push_as(&self, pass: &mut Pass<T>, item: T) -> Result<(), T> {
        let look = next_look(&PUSHES);
        call(&BEFORE_PUSH, look);
        let pushed = self.0.push_as(pass, item);
        if pushed.is_err() {
            call(&NO_ROOM, look);
        }
        pushed
    }

    pub fn pop_as(&self, pass: &mut Pass<T>) -> Option<T> {
        call(&BEFORE, next_look(&LOOKS));
        self.0.pop_as(pass)
    }
}

impl<T> Deref for RuledArrayQueue<T> {
    type Target = rings::RuledArrayQueue<T>;

    fn deref(&self) -> &rings::RuledArrayQueue<T> {
        &self.0
    }
}
