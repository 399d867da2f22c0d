// Erased from crates/percpu_gate/src/control/words.rt by tools/erase: edit that file.
//! The calls of the control for a gate at zero: looking for ZERO, and storing guarded words.

use super::Control;
use crate::erased::percpu_core::Phase;
use crate::erased::percpu_gate::control_fault::ControlFault;
use crate::erased::percpu_gate::gate::Gate;
use crate::erased::percpu_words::is_zero;

impl<const W: usize> Control<W> {
    /// Whether the count has reached zero since the kill, at this load. It stays true until the gate is revived. Linux:
    /// `percpu_ref_is_zero` (lib/percpu-refcount.c).
    ///
    /// # Preconditions
    ///
    /// - `self` belongs to `gate`.
    pub fn is_zero(&mut self, gate: &Gate<W>) -> bool {
        is_zero(self.seat.look(&gate.table))
    }

    /// Why a call for a dead gate would be refused now.
    pub(super) fn refuse_unless_dead(&self) -> Result<(), ControlFault> {
        if self.phase.is_mid_switch() {
            Err(ControlFault::MidSwitch)
        } else if self.phase == Phase::Dead {
            Ok(())
        } else {
            Err(ControlFault::NotDead)
        }
    }

    /// Why a call for a gate at zero would be refused now. It makes one load.
    ///
    /// # Preconditions
    ///
    /// - `self` belongs to `gate`.
    pub(super) fn refuse_unless_at_zero(&mut self, gate: &Gate<W>) -> Result<(), ControlFault> {
        self.refuse_unless_dead()?;
        if self.is_zero(gate) { Ok(()) } else { Err(ControlFault::NotZero) }
    }

    /// Stores the guarded word `k`, while the gate is dead and at zero. Refuses with MidSwitch, NotDead or NotZero.
    ///
    /// # Preconditions
    ///
    /// - `self` belongs to `gate`.
    /// - `k` is less than `W`.
    pub fn store_word(&mut self, gate: &Gate<W>, k: u32, v: u64) -> Result<(), ControlFault> {
        debug_assert!((k as usize) < W);
        self.refuse_unless_at_zero(gate)?;
        self.seat.store_word(&gate.table, k, v);
        self.words[k as usize] = v;
        Ok(())
    }

    /// The guarded words.
    pub fn words(&self) -> [u64; W] {
        self.words
    }
}
