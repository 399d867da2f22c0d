//! Starting states, sizes and the making of a gate.
use crate::erased::percpu_gate as erased;
use crate::errors::NewError;
use crate::gate::Gate;
use crate::shared::{ErasedGate, Shared};
use crate::{OnLast, WORD_COUNT};

/// How a gate starts.
///
/// ```
/// use percpu_gate::{Gate, Phase, Start};
/// use std::sync::Arc;
///
/// let gate = Gate::new(4, 4, Start::Atomic, [0; 8], Arc::new(|| {}))?;
/// assert_eq!(gate.phase(), Phase::LiveAtomic);
/// # Ok::<(), Box<dyn std::error::Error>>(())
/// ```
#[derive(Clone, Copy, Debug, PartialEq, Eq, Hash)]
pub enum Start {
    /// Live, counting on slots.
    Slots,
    /// Live, counting only on the shared word.
    Atomic,
    /// Dead and at zero. `on_last` isn't called for that zero.
    Dead,
}

impl From<Start> for erased::Start {
    fn from(start: Start) -> erased::Start {
        match start {
            Start::Slots => erased::Start::Slots,
            Start::Atomic => erased::Start::Atomic,
            Start::Dead => erased::Start::Dead,
        }
    }
}

impl Gate {
    /// Maximum number of slots.
    ///
    /// ```
    /// assert_eq!(percpu_gate::Gate::MAX_SLOTS, 512);
    /// ```
    pub const MAX_SLOTS: u32 = erased::SLOT_LIMIT;

    /// Maximum number of passes that are out at the same time.
    ///
    /// ```
    /// assert_eq!(percpu_gate::Gate::MAX_PASSES, 1_024);
    /// ```
    pub const MAX_PASSES: u32 = erased::PASS_LIMIT;

    /// Maximum number of references that one pass holds.
    ///
    /// ```
    /// assert_eq!(percpu_gate::Gate::MAX_HELD, 65_535);
    /// ```
    pub const MAX_HELD: u32 = erased::HELD_LIMIT;

    /// Makes a gate with 1 to 512 slots, 1 to 1,024 passes and these guarded words. Linux: `percpu_ref_init`.
    ///
    /// `on_last` is called once for each release (the last put after a kill), by the call that makes it, on its thread, before
    /// that call returns. That call is the drop of a reference, a kill, or a refused try.
    ///
    /// # Errors
    ///
    /// Returns [`NewError::Size`] or [`NewError::NoMemory`]. The block of some 330 bytes that the gate and its passes share
    /// is an [`Arc`](alloc::sync::Arc). Stable Rust can't report a failure of that allocation: the program ends.
    ///
    /// # Examples
    ///
    /// ```
    /// use percpu_gate::{Gate, Killed, Start};
    /// use std::sync::Arc;
    ///
    /// let mut gate = Gate::new(1, 1, Start::Slots, [0; 8], Arc::new(|| println!("the last is gone")))?;
    /// assert_eq!(gate.kill()?, Killed::AtZero);
    /// # Ok::<(), Box<dyn std::error::Error>>(())
    /// ```
    pub fn new(
        slots: u32,
        passes: u32,
        start: Start,
        words: [u64; WORD_COUNT],
        on_last: OnLast,
    ) -> Result<Gate, NewError> {
        if slots == 0 || slots > Gate::MAX_SLOTS || passes == 0 || passes > Gate::MAX_PASSES {
            return Err(NewError::Size);
        }
        let made = ErasedGate::new(slots, passes, start.into(), words);
        let (gate, control, passes) = made.map_err(|erased::Memory| NewError::NoMemory)?;
        Ok(Gate::of(control, passes, Shared::of(gate, on_last)))
    }
}
