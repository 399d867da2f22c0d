// Erased from crates/percpu_gate/src/control/revival.rt by tools/erase: edit that file.
//! Reviving a dead gate.

use super::Control;
use crate::erased::percpu_core::Phase;
use crate::erased::percpu_gate::control_fault::ControlFault;
use crate::erased::percpu_gate::gate::Gate;
use crate::erased::percpu_gate::revived::Revived;
use crate::erased::percpu_words::Mode;

impl<const W: usize> Control<W> {
    /// Revives a gate that has reached zero. Refuses with MidSwitch, NotDead or NotZero. Linux: `percpu_ref_reinit`
    /// (lib/percpu-refcount.c).
    ///
    /// # Preconditions
    ///
    /// - `self` belongs to `gate`.
    pub fn reinit(&mut self, gate: &Gate<W>) -> Result<(), ControlFault> {
        self.refuse_unless_at_zero(gate)?;
        self.revive(gate);
        Ok(())
    }

    /// Revives a dead gate, whether or not it has reached zero. Refuses with MidSwitch or NotDead. Linux:
    /// `percpu_ref_resurrect` (lib/percpu-refcount.c).
    ///
    /// # Preconditions
    ///
    /// - `self` belongs to `gate`.
    pub fn resurrect(&mut self, gate: &Gate<W>) -> Result<Revived, ControlFault> {
        self.refuse_unless_dead()?;
        Ok(if self.revive(gate) { Revived::AtZero } else { Revived::Held })
    }

    /// Revives a dead gate in its mode. Returns whether it was at zero.
    ///
    /// # Preconditions
    ///
    /// - `self` belongs to `gate`.
    /// - `self.view.standing.phase` is `Dead`.
    fn revive(&mut self, gate: &Gate<W>) -> bool {
        self.front += 1;
        let at_zero = self.seat.revive(&gate.table, self.front);
        if self.wants == Mode::Slots {
            self.seat.open_all(&gate.table);
        }
        self.phase = Phase::live(self.wants);
        at_zero
    }
}
