//! The gate as its owner sees it: passes, kills, revivals, the end.
use crate::erased::percpu_gate::{self as erased, ControlFault, Put};
use crate::errors::{ExitError, KillError, NextPassError, ReinitError, ResurrectError, RetireError, StoreError};
use crate::handed_back::HandedBack;
use crate::outcomes::{Final, Killed, Revived};
use crate::pass::Pass;
use crate::shared::{ErasedControl, ErasedPass, Shared};
use crate::word::Word;
use alloc::sync::Arc;
use alloc::vec::Vec;
use core::cell::RefCell;
use core::fmt;

mod confirmed;
mod looks;

use confirmed::Confirmed;

/// A gate. Its owner gives out passes, kills the gate, revives it and ends it.
///
/// A gate can move between threads, but two threads can't use it at the same time (it is `Send`, and not `Sync`). No call waits, takes a
/// lock or retries. After a gate is dropped, passes that are out still count, and the gate is never killed or revived
/// again.
///
/// ```
/// use percpu_gate::{Gate, Start};
/// use std::sync::Arc;
///
/// let mut gate = Gate::new(1, 1, Start::Slots, [0; 8], Arc::new(|| {}))?;
/// let pass = gate.next_pass(0)?;
/// drop(pass.try_get_live()?);
/// gate.retire(pass)?;
/// let last = gate.exit()?;
/// assert_eq!(last.kills, 0);
/// # Ok::<(), Box<dyn std::error::Error>>(())
/// ```
pub struct Gate {
    /// The control of `shared`. A kill is under way only during a call of this gate.
    ///
    /// Borrowed only during its own calls, and none of these calls back into this crate, so no borrow fails.
    erased: RefCell<ErasedControl>,
    /// The passes that aren't out, new or retired, with room for all passes of the gate. Each holds nothing.
    passes: Vec<ErasedPass>,
    /// The releases of the passes that were retired.
    of_retired: u64,
    shared: Arc<Shared>,
}

impl Gate {
    /// Makes the gate of this control and these passes, none of which was given out.
    pub(crate) fn of(control: ErasedControl, passes: Vec<ErasedPass>, shared: Shared) -> Gate {
        Gate { erased: RefCell::new(control), passes, of_retired: 0, shared: Arc::new(shared) }
    }

    /// Returns a pass that isn't out (a new or a retired one), which counts on this slot. Slots are numbered from 0. This call works
    /// on a live or dead gate, and doesn't allocate.
    ///
    /// # Errors
    ///
    /// Returns [`NextPassError::NoSlot`] or [`NextPassError::NoPass`].
    ///
    /// # Examples
    ///
    /// ```
    /// # use percpu_gate::{Gate, Start};
    /// # use std::sync::Arc;
    /// # let mut gate = Gate::new(4, 4, Start::Slots, [0; 8], Arc::new(|| {}))?;
    /// let pass = gate.next_pass(3)?;
    /// assert!(pass.try_get_live().is_ok());
    /// # Ok::<(), Box<dyn std::error::Error>>(())
    /// ```
    pub fn next_pass(&mut self, slot: u32) -> Result<Pass, NextPassError> {
        if slot >= self.shared.gate.slots() {
            return Err(NextPassError::NoSlot);
        }
        let pass = self.passes.pop().ok_or(NextPassError::NoPass)?;
        Ok(Pass::on_slot(pass, slot, Arc::clone(&self.shared)))
    }

    /// Takes a pass back, for [`next_pass`](Gate::next_pass) to give out again. This call works on a live or dead gate, and doesn't
    /// allocate.
    ///
    /// # Errors
    ///
    /// Returns [`RetireError::OtherGate`] or [`RetireError::StillHeld`], with the pass. (Only a leaked reference leads to
    /// `StillHeld`, since a reference that exists borrows its pass.)
    ///
    /// # Examples
    ///
    /// ```
    /// # use percpu_gate::{Gate, RetireError, Start};
    /// # use std::sync::Arc;
    /// # let mut gate = Gate::new(4, 4, Start::Slots, [0; 8], Arc::new(|| {}))?;
    /// let pass = gate.next_pass(0)?;
    /// std::mem::forget(pass.try_get_live()?);
    /// assert_eq!(gate.retire(pass).unwrap_err().reason, RetireError::StillHeld);
    /// let pass = gate.next_pass(0)?;
    /// gate.retire(pass)?;
    /// # Ok::<(), Box<dyn std::error::Error>>(())
    /// ```
    #[expect(clippy::result_large_err, reason = "a refusal hands the pass back")]
    pub fn retire(&mut self, pass: Pass) -> Result<(), HandedBack<Pass, RetireError>> {
        if !Arc::ptr_eq(&self.shared, pass.shared()) {
            return Err(HandedBack { value: pass, reason: RetireError::OtherGate });
        }
        if pass.held() > 0 {
            return Err(HandedBack { value: pass, reason: RetireError::StillHeld });
        }
        let (pass, releases) = pass.into_parts();
        self.passes.push(pass); // there is room: all of them were here once
        self.of_retired += releases;
        Ok(())
    }

    /// Ends the gate, live or dead, once every pass that was given out is retired. This call doesn't allocate. Linux:
    /// `percpu_ref_exit`.
    ///
    /// # Errors
    ///
    /// Returns [`ExitError::PassesOut`], with the gate.
    ///
    /// # Examples
    ///
    /// ```
    /// # use percpu_gate::{Gate, Start};
    /// # use std::sync::Arc;
    /// let gate = Gate::new(4, 4, Start::Slots, [1; 8], Arc::new(|| {}))?;
    /// assert_eq!(gate.exit()?.words, [1; 8]);
    /// # Ok::<(), Box<dyn std::error::Error>>(())
    /// ```
    #[expect(clippy::result_large_err, reason = "a refusal hands the gate back")]
    pub fn exit(mut self) -> Result<Final, HandedBack<Gate, ExitError>> {
        if self.erased.get_mut().passes() as usize > self.passes.len() {
            return Err(HandedBack { value: self, reason: ExitError::PassesOut });
        }
        let Gate { erased, passes, of_retired, shared } = self;
        // Every pass that was given out is retired, which dropped its share, so this share is the only one. The other arm can't be reached.
        let gate = match Arc::try_unwrap(shared) {
            Ok(shared) => shared.gate,
            Err(shared) => {
                let reason = ExitError::PassesOut;
                return Err(HandedBack { value: Gate { erased, passes, of_retired, shared }, reason });
            }
        };
        let mut control = erased.into_inner();
        for pass in passes {
            control.retire(&gate, pass);
        }
        match gate.exit(control) {
            Ok(left) => Ok(left.into()),
            Err(refused) => excluded("exit", refused.why),
        }
    }

    /// Kills the gate: from now on `try_get_live` is refused, and `on_last` is called once when the last reference is gone.
    /// Linux: `percpu_ref_kill`.
    ///
    /// # Errors
    ///
    /// Returns [`KillError::AlreadyDead`] or [`KillError::WornOut`].
    ///
    /// # Examples
    ///
    /// ```
    /// # use percpu_gate::{Gate, Killed, Start};
    /// # use std::sync::Arc;
    /// # let mut gate = Gate::new(4, 4, Start::Slots, [0; 8], Arc::new(|| {}))?;
    /// # let pass = gate.next_pass(0)?;
    /// assert_eq!(gate.kill()?, Killed::AtZero);
    /// assert!(pass.try_get_live().is_err());
    /// # Ok::<(), Box<dyn std::error::Error>>(())
    /// ```
    pub fn kill(&mut self) -> Result<Killed, KillError> {
        let killed = self.erased.get_mut().kill(&self.shared.gate);
        killed.map(|put| self.ended_by(put)).map_err(kill_refused)
    }

    /// Kills the gate, and calls `confirm` during the kill: when no pass gets a live reference any more, and before the count can
    /// reach zero. The argument of `confirm` is the odd [`front`](Pass::front) of this kill. Linux: `percpu_ref_kill_and_confirm`.
    ///
    /// If `confirm` panics, the kill is completed all the same. (Only C has the separate steps of a kill, in `percpu_gate.h`.)
    ///
    /// # Errors
    ///
    /// Returns [`KillError::AlreadyDead`] or [`KillError::WornOut`]; then `confirm` isn't called.
    ///
    /// # Examples
    ///
    /// ```
    /// # use percpu_gate::{Gate, Start};
    /// # use std::sync::Arc;
    /// # let mut gate = Gate::new(4, 4, Start::Slots, [0; 8], Arc::new(|| {}))?;
    /// # let pass = gate.next_pass(0)?;
    /// gate.kill_and_confirm(|front| {
    ///     assert_eq!(front, pass.front());
    ///     assert!(pass.try_get_live().is_err());
    ///     assert!(!pass.is_zero());
    /// })?;
    /// assert!(pass.is_zero());
    /// # Ok::<(), Box<dyn std::error::Error>>(())
    /// ```
    pub fn kill_and_confirm(&mut self, confirm: impl FnOnce(u64)) -> Result<Killed, KillError> {
        let (gate, control) = (&self.shared.gate, self.erased.get_mut());
        let slots = control.mark_dead(gate).map_err(kill_refused)?;
        for _ in 0..slots {
            control.close_next(gate);
        }
        if slots > 0 {
            control.collect(gate);
        }
        let front = control.confirm(gate);
        let confirmed = Confirmed::of(self);
        confirm(front);
        Ok(confirmed.end())
    }

    /// Revives a dead gate that has reached zero. Linux: `percpu_ref_reinit`.
    ///
    /// # Errors
    ///
    /// Returns [`ReinitError::NotDead`] or [`ReinitError::NotZero`].
    ///
    /// # Examples
    ///
    /// ```
    /// # use percpu_gate::{Gate, Start};
    /// # use std::sync::Arc;
    /// # let mut gate = Gate::new(4, 4, Start::Slots, [0; 8], Arc::new(|| {}))?;
    /// # let pass = gate.next_pass(0)?;
    /// gate.kill()?;
    /// gate.reinit()?;
    /// assert!(pass.try_get_live().is_ok());
    /// # Ok::<(), Box<dyn std::error::Error>>(())
    /// ```
    pub fn reinit(&mut self) -> Result<(), ReinitError> {
        match self.erased.get_mut().reinit(&self.shared.gate) {
            Ok(()) => Ok(()),
            Err(ControlFault::NotDead) => Err(ReinitError::NotDead),
            Err(ControlFault::NotZero) => Err(ReinitError::NotZero),
            Err(other) => excluded("reinit", other),
        }
    }

    /// Revives a dead gate, whether references are held or not. Linux: `percpu_ref_resurrect`.
    ///
    /// # Errors
    ///
    /// Returns [`ResurrectError::NotDead`].
    ///
    /// # Examples
    ///
    /// ```
    /// # use percpu_gate::{Gate, Revived, Start};
    /// # use std::sync::Arc;
    /// # let mut gate = Gate::new(4, 4, Start::Slots, [0; 8], Arc::new(|| panic!("no release comes")))?;
    /// # let pass = gate.next_pass(0)?;
    /// let reference = pass.try_get_live()?;
    /// gate.kill()?;
    /// assert_eq!(gate.resurrect()?, Revived::WhileHeld);
    /// drop(reference);
    /// # Ok::<(), Box<dyn std::error::Error>>(())
    /// ```
    pub fn resurrect(&mut self) -> Result<Revived, ResurrectError> {
        match self.erased.get_mut().resurrect(&self.shared.gate) {
            Ok(erased::Revived::Held) => Ok(Revived::WhileHeld),
            Ok(erased::Revived::AtZero) => Ok(Revived::FromZero),
            Err(ControlFault::NotDead) => Err(ResurrectError::NotDead),
            Err(other) => excluded("resurrect", other),
        }
    }

    /// Makes the gate count only on the shared word. A dead gate does so after its revival. Linux:
    /// `percpu_ref_switch_to_atomic_sync`.
    ///
    /// ```
    /// # use percpu_gate::{Gate, Phase, Start};
    /// # use std::sync::Arc;
    /// # let mut gate = Gate::new(4, 4, Start::Slots, [0; 8], Arc::new(|| {}))?;
    /// gate.switch_to_atomic();
    /// assert_eq!(gate.phase(), Phase::LiveAtomic);
    /// # Ok::<(), Box<dyn std::error::Error>>(())
    /// ```
    pub fn switch_to_atomic(&mut self) {
        let switched = self.erased.get_mut().switch_to_atomic(&self.shared.gate);
        switched.unwrap_or_else(|fault| excluded("switch_to_atomic", fault));
    }

    /// Makes the gate count on slots. A dead gate does so after its revival. Linux: `percpu_ref_switch_to_percpu`.
    ///
    /// ```
    /// # use percpu_gate::{Gate, Phase, Start};
    /// # use std::sync::Arc;
    /// # let mut gate = Gate::new(4, 4, Start::Atomic, [0; 8], Arc::new(|| {}))?;
    /// gate.switch_to_slots();
    /// assert_eq!(gate.phase(), Phase::LiveOnSlots);
    /// # Ok::<(), Box<dyn std::error::Error>>(())
    /// ```
    pub fn switch_to_slots(&mut self) {
        let switched = self.erased.get_mut().switch_to_slots(&self.shared.gate);
        switched.unwrap_or_else(|fault| excluded("switch_to_slots", fault));
    }

    /// Stores a guarded word while the gate is dead and at zero.
    ///
    /// # Errors
    ///
    /// Returns [`StoreError::NotDead`] or [`StoreError::NotZero`].
    ///
    /// # Examples
    ///
    /// ```
    /// # use percpu_gate::{Gate, Start, Word};
    /// # use std::sync::Arc;
    /// # let mut gate = Gate::new(4, 4, Start::Slots, [0; 8], Arc::new(|| {}))?;
    /// # let pass = gate.next_pass(0)?;
    /// const SECTOR_LIMIT: Word = Word::new(0).unwrap();
    /// gate.kill()?;
    /// gate.store_word(SECTOR_LIMIT, 512)?;
    /// gate.reinit()?;
    /// assert_eq!(pass.try_get_live()?.word(SECTOR_LIMIT), 512);
    /// # Ok::<(), Box<dyn std::error::Error>>(())
    /// ```
    pub fn store_word(&mut self, which: Word, value: u64) -> Result<(), StoreError> {
        match self.erased.get_mut().store_word(&self.shared.gate, which.number(), value) {
            Ok(()) => Ok(()),
            Err(ControlFault::NotDead) => Err(StoreError::NotDead),
            Err(ControlFault::NotZero) => Err(StoreError::NotZero),
            Err(other) => excluded("store_word", other),
        }
    }

    /// Calls `on_last` if this put of the kill was the last, and returns what the kill found.
    fn ended_by(&self, put: Put) -> Killed {
        match put {
            Put::NotLast => Killed::WhileHeld,
            Put::Last => {
                self.shared.call_on_last();
                Killed::AtZero
            }
        }
    }
}

impl fmt::Debug for Gate {
    fn fmt(&self, f: &mut fmt::Formatter<'_>) -> fmt::Result {
        let mut shown = f.debug_struct("Gate");
        shown.field("id", &self.id()).field("phase", &self.phase()).finish_non_exhaustive()
    }
}

fn kill_refused(fault: ControlFault) -> KillError {
    match fault {
        ControlFault::AlreadyDead => KillError::AlreadyDead,
        ControlFault::WornOut => KillError::WornOut,
        other => excluded("kill", other),
    }
}

/// Panics at a refusal that this crate's types exclude.
#[cold]
#[track_caller]
fn excluded(call: &str, refusal: impl fmt::Display) -> ! {
    panic!("a bug of percpu-gate: {call} was refused ({refusal})")
}
