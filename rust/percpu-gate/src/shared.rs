//! The part of a gate that its owner and its passes share.
use crate::OnLast;
use crate::erased::percpu_gate as erased;
use core::sync::atomic::{AtomicU64, Ordering::Relaxed};

/// Guarded words of a gate.
pub(crate) const WORD_COUNT: usize = 8;

pub(crate) type ErasedGate = erased::Gate<WORD_COUNT>;
pub(crate) type ErasedControl = erased::Control<WORD_COUNT>;
pub(crate) type ErasedPass = erased::Pass<WORD_COUNT>;

/// The gate that owner and passes share.
pub(crate) struct Shared {
    pub(crate) gate: ErasedGate,
    /// A unique id, at least 1.
    pub(crate) number: u64,
    on_last: OnLast,
}

impl Shared {
    pub(crate) fn of(gate: ErasedGate, on_last: OnLast) -> Shared {
        static NUMBERS: AtomicU64 = AtomicU64::new(1);
        Shared { gate, number: NUMBERS.fetch_add(1, Relaxed), on_last }
    }

    /// Calls `on_last`, on behalf of the call that made the release. If the thread is already unwinding and `on_last` panics too, the
    /// first panic continues. (Without `std` the program ends then.)
    #[cold]
    pub(crate) fn call_on_last(&self) {
        #[cfg(feature = "std")]
        if std::thread::panicking() {
            let on_last = std::panic::AssertUnwindSafe(|| (self.on_last)());
            drop(std::panic::catch_unwind(on_last));
            return;
        }
        (self.on_last)();
    }
}
