//! A pass of a gate, which counts references.
use crate::erased::percpu_gate::{HELD_LIMIT, Put, Tried};
use crate::errors::{GetError, SlotError, TryGetError};
use crate::handed_back::HandedBack;
use crate::owned::OwnedReference;
use crate::reference::Reference;
use crate::shared::{ErasedGate, ErasedPass, Shared};
use crate::word::Word;
use alloc::sync::Arc;
use core::cell::{Cell, RefCell};
use core::fmt;

/// A pass, with which one thread at a time takes references of its gate.
///
/// A pass can move between threads, but two threads can't use it at the same time (it is `Send`, and not `Sync`). It is alone on 256
/// bytes, so the passes of two threads share no cache line. No call waits, takes a lock, retries or allocates.
///
/// Give a pass back to its gate with [`Gate::retire`](crate::Gate::retire), to be given out again. A pass that is dropped instead
/// counts as out forever, and its gate can't [`exit`](crate::Gate::exit).
///
/// ```
/// use percpu_gate::{Gate, Start};
/// use std::sync::Arc;
/// use std::thread;
///
/// let mut gate = Gate::new(2, 2, Start::Slots, [0; 8], Arc::new(|| {}))?;
/// let passes = [gate.next_pass(0)?, gate.next_pass(1)?];
/// let threads = passes.map(|pass| {
///     thread::spawn(move || {
///         let served = (0..1000).filter(|_| pass.try_get_live().is_ok()).count();
///         (pass, served)
///     })
/// });
/// for thread in threads {
///     let (pass, served) = thread.join().unwrap();
///     assert_eq!(served, 1000);
///     gate.retire(pass)?;
/// }
/// # Ok::<(), Box<dyn std::error::Error>>(())
/// ```
#[repr(align(128))]
pub struct Pass {
    /// The pass of the gate of `shared`. It holds a reference for each [`Reference`] that exists or was leaked.
    ///
    /// Borrowed only during its own calls, and none of these calls back into this crate, so no borrow fails.
    erased: RefCell<ErasedPass>,
    /// Below the number of the gate's slots.
    slot: Cell<u32>,
    /// The releases that this pass made since it was given out.
    releases: Cell<u64>,
    shared: Arc<Shared>,
}

impl Pass {
    /// Makes a pass that holds nothing, on a slot of this gate.
    pub(crate) fn on_slot(pass: ErasedPass, slot: u32, shared: Arc<Shared>) -> Pass {
        Pass { erased: RefCell::new(pass), slot: Cell::new(slot), releases: Cell::new(0), shared }
    }

    /// The gate that it belongs to.
    pub(crate) fn shared(&self) -> &Arc<Shared> {
        &self.shared
    }

    /// The number of references that it holds.
    pub(crate) fn held(&self) -> u32 {
        self.erased.borrow().held()
    }

    /// The erased pass, and the releases that this pass made since it was given out.
    pub(crate) fn into_parts(self) -> (ErasedPass, u64) {
        (self.erased.into_inner(), self.releases.get())
    }

    /// Counts a release that this pass made, and calls `on_last`.
    #[cold]
    fn release(&self) {
        self.releases.set(self.releases.get() + 1);
        self.shared.call_on_last();
    }

    /// Takes a reference unless the gate has reached zero. A pass that holds a reference always gets another. Linux:
    /// `percpu_ref_tryget`.
    ///
    /// # Errors
    ///
    /// Returns [`TryGetError::NotGiven`] or [`TryGetError::HeldFull`]. A refused try may make the release; then it has called `on_last`.
    ///
    /// # Examples
    ///
    /// ```
    /// # use percpu_gate::{Gate, Start, TryGetError};
    /// # use std::sync::Arc;
    /// # let mut gate = Gate::new(1, 2, Start::Slots, [0; 8], Arc::new(|| {}))?;
    /// # let (pass, other) = (gate.next_pass(0)?, gate.next_pass(0)?);
    /// let reference = other.try_get()?;
    /// gate.kill()?;
    /// assert!(pass.try_get().is_ok());
    /// drop(reference);
    /// assert_eq!(pass.try_get().unwrap_err(), TryGetError::NotGiven);
    /// # Ok::<(), Box<dyn std::error::Error>>(())
    /// ```
    #[inline]
    pub fn try_get(&self) -> Result<Reference<'_>, TryGetError> {
        self.take(ErasedPass::try_get)?;
        Ok(Reference::of(self))
    }

    /// Takes a reference unless the gate was killed. Linux: `percpu_ref_tryget_live`.
    ///
    /// # Errors
    ///
    /// Returns [`TryGetError::NotGiven`] or [`TryGetError::HeldFull`]. A refused try may make the release; then it has called `on_last`.
    ///
    /// # Examples
    ///
    /// ```
    /// # use percpu_gate::{Gate, Start, TryGetError};
    /// # use std::sync::Arc;
    /// # let mut gate = Gate::new(1, 1, Start::Slots, [0; 8], Arc::new(|| {}))?;
    /// # let pass = gate.next_pass(0)?;
    /// let reference = pass.try_get_live()?;
    /// gate.kill()?;
    /// assert_eq!(pass.try_get_live().unwrap_err(), TryGetError::NotGiven);
    /// # Ok::<(), Box<dyn std::error::Error>>(())
    /// ```
    #[inline]
    pub fn try_get_live(&self) -> Result<Reference<'_>, TryGetError> {
        self.take(ErasedPass::try_get_live)?;
        Ok(Reference::of(self))
    }

    /// Takes a reference as [`try_get`](Pass::try_get) does, and moves the pass into it.
    ///
    /// # Errors
    ///
    /// Returns [`TryGetError::NotGiven`] or [`TryGetError::HeldFull`], with the pass.
    ///
    /// # Examples
    ///
    /// ```
    /// # use percpu_gate::{Gate, Start};
    /// # use std::sync::Arc;
    /// # let mut gate = Gate::new(1, 1, Start::Slots, [0; 8], Arc::new(|| {}))?;
    /// # let pass = gate.next_pass(0)?;
    /// let request = pass.into_reference()?;
    /// gate.kill()?;
    /// let pass = request.put();
    /// let refused = pass.into_reference().unwrap_err();
    /// gate.retire(refused.value)?;
    /// # Ok::<(), Box<dyn std::error::Error>>(())
    /// ```
    #[expect(clippy::result_large_err, reason = "a refusal hands the pass back")]
    pub fn into_reference(self) -> Result<OwnedReference, HandedBack<Pass, TryGetError>> {
        let taken = self.take(ErasedPass::try_get);
        OwnedReference::of(self, taken)
    }

    /// Takes a reference as [`try_get_live`](Pass::try_get_live) does, and moves the pass into it.
    ///
    /// # Errors
    ///
    /// Returns [`TryGetError::NotGiven`] or [`TryGetError::HeldFull`], with the pass.
    ///
    /// # Examples
    ///
    /// ```
    /// # use percpu_gate::{Gate, Start, TryGetError};
    /// # use std::sync::Arc;
    /// # let mut gate = Gate::new(1, 1, Start::Dead, [0; 8], Arc::new(|| {}))?;
    /// # let pass = gate.next_pass(0)?;
    /// let refused = pass.into_reference_live().unwrap_err();
    /// assert_eq!(refused.reason, TryGetError::NotGiven);
    /// gate.reinit()?;
    /// let request = refused.value.into_reference_live()?;
    /// # Ok::<(), Box<dyn std::error::Error>>(())
    /// ```
    #[expect(clippy::result_large_err, reason = "a refusal hands the pass back")]
    pub fn into_reference_live(self) -> Result<OwnedReference, HandedBack<Pass, TryGetError>> {
        let taken = self.take(ErasedPass::try_get_live);
        OwnedReference::of(self, taken)
    }

    /// Returns the slot that this pass counts on.
    ///
    /// ```
    /// # use percpu_gate::{Gate, Start};
    /// # use std::sync::Arc;
    /// # let mut gate = Gate::new(2, 1, Start::Slots, [0; 8], Arc::new(|| {}))?;
    /// let pass = gate.next_pass(1)?;
    /// assert_eq!(pass.slot(), 1);
    /// # Ok::<(), Box<dyn std::error::Error>>(())
    /// ```
    #[must_use]
    pub fn slot(&self) -> u32 {
        self.slot.get()
    }

    /// Makes the pass count on another slot, for example the slot of the thread's processor. A reference that was taken on one
    /// slot may be put on another.
    ///
    /// # Errors
    ///
    /// Returns [`SlotError::NoSlot`].
    ///
    /// # Examples
    ///
    /// ```
    /// # use percpu_gate::{Gate, Start};
    /// # use std::sync::Arc;
    /// # let mut gate = Gate::new(2, 1, Start::Slots, [0; 8], Arc::new(|| {}))?;
    /// # let pass = gate.next_pass(0)?;
    /// let reference = pass.try_get_live()?;
    /// pass.use_slot(1)?;
    /// drop(reference);
    /// # Ok::<(), Box<dyn std::error::Error>>(())
    /// ```
    pub fn use_slot(&self, slot: u32) -> Result<(), SlotError> {
        if slot >= self.shared.gate.slots() {
            return Err(SlotError::NoSlot);
        }
        self.slot.set(slot);
        Ok(())
    }

    /// Returns whether the gate is dead: killed or started dead, and not revived since. Linux: `percpu_ref_is_dying`.
    ///
    /// ```
    /// # use percpu_gate::{Gate, Start};
    /// # use std::sync::Arc;
    /// # let mut gate = Gate::new(1, 1, Start::Slots, [0; 8], Arc::new(|| {}))?;
    /// # let pass = gate.next_pass(0)?;
    /// assert!(!pass.is_dying());
    /// gate.kill()?;
    /// assert!(pass.is_dying());
    /// # Ok::<(), Box<dyn std::error::Error>>(())
    /// ```
    #[must_use]
    pub fn is_dying(&self) -> bool {
        self.erased.borrow_mut().is_dying(&self.shared.gate)
    }

    /// Returns whether the count has reached zero. `on_last` may not have been called yet, or not have returned. Linux:
    /// `percpu_ref_is_zero`.
    ///
    /// ```
    /// # use percpu_gate::{Gate, Start};
    /// # use std::sync::Arc;
    /// # let mut gate = Gate::new(1, 1, Start::Dead, [0; 8], Arc::new(|| {}))?;
    /// # let pass = gate.next_pass(0)?;
    /// assert!(pass.is_zero());
    /// # Ok::<(), Box<dyn std::error::Error>>(())
    /// ```
    #[must_use]
    pub fn is_zero(&self) -> bool {
        self.erased.borrow_mut().is_zero(&self.shared.gate)
    }

    /// Returns the front: a number that only grows. It is odd from the confirmation of a kill, or from a dead start, until the next
    /// revival.
    ///
    /// A pass that has seen the front of [`kill_and_confirm`](crate::Gate::kill_and_confirm) gets no live reference before the next
    /// revival.
    ///
    /// ```
    /// # use percpu_gate::{Gate, Start};
    /// # use std::sync::Arc;
    /// # let mut gate = Gate::new(1, 1, Start::Slots, [0; 8], Arc::new(|| {}))?;
    /// # let pass = gate.next_pass(0)?;
    /// assert_eq!(pass.front(), 0);
    /// gate.kill()?;
    /// assert_eq!(pass.front(), 1);
    /// gate.reinit()?;
    /// assert_eq!(pass.front(), 2);
    /// # Ok::<(), Box<dyn std::error::Error>>(())
    /// ```
    #[must_use]
    pub fn front(&self) -> u64 {
        self.erased.borrow_mut().front(&self.shared.gate)
    }

    /// Returns the unique id of the gate, at least 1.
    ///
    /// ```
    /// # use percpu_gate::{Gate, Start};
    /// # use std::sync::Arc;
    /// # let mut gate = Gate::new(1, 1, Start::Slots, [0; 8], Arc::new(|| {}))?;
    /// # let pass = gate.next_pass(0)?;
    /// assert_eq!(pass.gate_id(), gate.id());
    /// # Ok::<(), Box<dyn std::error::Error>>(())
    /// ```
    #[inline]
    #[must_use]
    pub fn gate_id(&self) -> u64 {
        self.shared.number
    }

    /// Takes a reference with this kind of try.
    #[inline]
    fn take(&self, try_by: impl FnOnce(&mut ErasedPass, &ErasedGate, u32) -> Tried) -> Result<(), TryGetError> {
        let mut pass = self.erased.borrow_mut();
        if pass.held() >= HELD_LIMIT {
            return Err(TryGetError::HeldFull);
        }
        let tried = try_by(&mut pass, &self.shared.gate, self.slot.get());
        drop(pass);
        match tried {
            Tried::Given => Ok(()),
            Tried::Refused(Put::NotLast) => Err(TryGetError::NotGiven),
            Tried::Refused(Put::Last) => {
                self.release();
                Err(TryGetError::NotGiven)
            }
        }
    }

    /// Takes `count` more references in one step. The caller has a reference of this pass.
    pub(crate) fn get(&self, count: u32) -> Result<(), GetError> {
        let mut pass = self.erased.borrow_mut();
        if count > HELD_LIMIT - pass.held() {
            return Err(GetError::HeldFull);
        }
        if count > 0 {
            pass.get(&self.shared.gate, self.slot.get(), count);
        }
        Ok(())
    }

    /// Drops `count` references of the caller, at least one, which this pass holds.
    #[inline]
    pub(crate) fn put(&self, count: u32) {
        let put = self.erased.borrow_mut().put(&self.shared.gate, self.slot.get(), count);
        if put == Put::Last {
            self.release();
        }
    }

    /// Reads a guarded word. The caller has a reference of this pass.
    #[inline]
    pub(crate) fn word(&self, which: Word) -> u64 {
        self.erased.borrow_mut().word(&self.shared.gate, which.number())
    }
}

impl fmt::Debug for Pass {
    fn fmt(&self, f: &mut fmt::Formatter<'_>) -> fmt::Result {
        f.debug_struct("Pass").field("gate", &self.gate_id()).field("slot", &self.slot()).finish_non_exhaustive()
    }
}
