// Erased from crates/percpu_gate/src/control/kill.rt by tools/erase: edit that file.
//! Killing a gate.

use super::Control;
use crate::erased::percpu_core::{KILL_LIMIT, Phase};
use crate::erased::percpu_gate::control_fault::ControlFault;
use crate::erased::percpu_gate::gate::Gate;
use crate::erased::percpu_gate::tried::Put;

impl<const W: usize> Control<W> {
    /// Why a kill would be refused now.
    fn refuse_unless_live(&self) -> Result<(), ControlFault> {
        if self.phase.is_mid_switch() {
            Err(ControlFault::MidSwitch)
        } else if self.phase == Phase::Dead {
            Err(ControlFault::AlreadyDead)
        } else if self.kills >= KILL_LIMIT {
            Err(ControlFault::WornOut)
        } else {
            Ok(())
        }
    }

    /// Begins a kill: sets DEAD. `try_get_live` is now refused on the shared word, and on a slot once that slot is
    /// closed. Returns the number of slots that have to be closed now: 0 in atomic mode. Refuses with MidSwitch,
    /// AlreadyDead or WornOut. Linux: `percpu_ref_kill_and_confirm` (lib/percpu-refcount.c).
    ///
    /// # Preconditions
    ///
    /// - `self` belongs to `gate`.
    pub fn mark_dead(&mut self, gate: &Gate<W>) -> Result<u32, ControlFault> {
        self.refuse_unless_live()?;
        self.seat.set_dead(&gate.table);
        self.kills += 1;
        if self.phase == Phase::LiveSlots {
            self.phase = Phase::Closing(0);
            Ok(gate.slots())
        } else {
            self.phase = Phase::Collected;
            Ok(0)
        }
    }

    /// Begins a kill, and closes and collects the open slots: `mark_dead`, `close_next` for each slot, and `collect` in
    /// one call.
    ///
    /// # Preconditions
    ///
    /// - `self` belongs to `gate`.
    fn begin_and_gather(&mut self, gate: &Gate<W>) -> Result<(), ControlFault> {
        self.refuse_unless_live()?;
        self.seat.set_dead(&gate.table);
        self.kills += 1;
        if self.phase == Phase::LiveSlots {
            self.seat.gather(&gate.table);
        }
        self.phase = Phase::Collected;
        Ok(())
    }

    /// Stores the odd front of the kill, and returns it. A pass that has seen it gets no live reference before the next
    /// life. Linux: the `confirm_kill` callback of `percpu_ref_kill_and_confirm` (lib/percpu-refcount.c).
    ///
    /// # Preconditions
    ///
    /// - `self` belongs to `gate`.
    /// - `self.view.standing.phase` is `Collected`.
    pub fn confirm(&mut self, gate: &Gate<W>) -> u64 {
        self.front += 1;
        self.seat.confirm(&gate.table, self.front);
        self.phase = Phase::Confirmed;
        self.front
    }

    /// Drops the initial reference, which ends a kill. `Last` is the release. Linux: the put of
    /// `percpu_ref_kill_and_confirm` (lib/percpu-refcount.c).
    ///
    /// # Preconditions
    ///
    /// - `self` belongs to `gate`.
    /// - `self.view.standing.phase` is `Confirmed`.
    pub fn drop_base(&mut self, gate: &Gate<W>) -> Put {
        let answer = self.seat.drop_initial(&gate.table);
        self.phase = Phase::Dead;
        self.releases += answer.released();
        answer
    }

    /// Kills the gate: `mark_dead`, `close_next` for each open slot and `collect`, `confirm`, and `drop_base`. Returns
    /// the result of putting the initial reference. Refuses with MidSwitch, AlreadyDead or WornOut. Linux:
    /// `percpu_ref_kill` (include/linux/percpu-refcount.h).
    ///
    /// # Preconditions
    ///
    /// - `self` belongs to `gate`.
    pub fn kill(&mut self, gate: &Gate<W>) -> Result<Put, ControlFault> {
        self.begin_and_gather(gate)?;
        self.confirm(gate);
        Ok(self.drop_base(gate))
    }

    /// Kills the gate, and calls `confirm` once with the odd front, when everything is collected and the initial
    /// reference is still held. Also returns the result of `confirm`. Linux: `percpu_ref_kill_and_confirm`
    /// (lib/percpu-refcount.c).
    ///
    /// # Preconditions
    ///
    /// - `self` belongs to `gate`.
    pub fn kill_and_confirm<R, F: FnOnce(u64) -> R>(
        &mut self,
        gate: &Gate<W>,
        confirm: F,
    ) -> Result<(Put, R), ControlFault> {
        self.begin_and_gather(gate)?;
        let front = self.confirm(gate);
        let answer = confirm(front);
        Ok((self.drop_base(gate), answer))
    }
}
