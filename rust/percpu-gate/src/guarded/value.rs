//! The value behind a gate: the only file of this crate with `unsafe`.
//!
//! Only two functions reach a value. `shared` lends it while a reference of the value's own gate is borrowed. `alone` lends
//! it while that gate is borrowed, if the gate is dead and at zero. A gate has a unique id and one owner. Three laws of the gate, which
//! are proved of its sources, keep both from lending at the same time:
//!
//! - A gate isn't at zero while a pass holds a reference. A leaked reference is held forever.
//! - A gate that is dead and at zero gives no reference before it is revived, and only its owner revives it.
//! - Each step is sequentially consistent. Everything done under a reference happens before the load that sees zero, and everything the
//!   owner does before a revival happens before the tries that succeed after it.
#![expect(unsafe_code, reason = "the compiler can't know the laws of the gate")]
use crate::{Gate, OwnedReference, Phase, Reference};
use core::cell::UnsafeCell;

/// A value that the gate with this id guards; none once it was taken out.
pub(crate) struct Value<T>(u64, UnsafeCell<Option<T>>);

// SAFETY: threads share `&T` under their references, and the owner's thread may change, move or drop a T made on another thread.
unsafe impl<T: Send + Sync> Sync for Value<T> {}

/// # Safety
///
/// Until this is dropped, the gate with this id isn't at zero.
pub(crate) unsafe trait Held {
    fn gate(&self) -> u64;
}

// SAFETY: the pass holds a reference for it, which its drop puts.
unsafe impl Held for Reference<'_> {
    fn gate(&self) -> u64 {
        self.gate_id()
    }
}

// SAFETY: the pass holds a reference for it, which its drop puts, or `put`, which consumes it.
unsafe impl Held for OwnedReference {
    fn gate(&self) -> u64 {
        self.pass().gate_id()
    }
}

impl<T> Value<T> {
    pub(crate) fn of(gate: &Gate, value: T) -> Value<T> {
        Value(gate.id(), UnsafeCell::new(Some(value)))
    }

    #[inline]
    pub(crate) fn shared<'r>(&'r self, held: &'r impl Held) -> &'r T {
        assert_eq!(held.gate(), self.0, "a reference of another gate");
        // SAFETY: the gate isn't at zero while `held` is borrowed, so `alone` lends nothing meanwhile.
        unsafe { &*self.1.get() }.as_ref().expect("it is taken out of a gate that is never revived")
    }

    pub(crate) fn alone<'c>(&'c self, gate: &'c mut Gate) -> Option<&'c mut Option<T>> {
        assert_eq!(gate.id(), self.0, "another gate");
        // SAFETY: no reference is held, and none is given while `gate` is borrowed, since only `gate` can revive it.
        (gate.phase() == Phase::Dead && gate.is_zero()).then(|| unsafe { &mut *self.1.get() })
    }
}
