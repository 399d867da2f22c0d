// Erased from crates/percpu_gate/src/control.rt by tools/erase: edit that file.
//! The control of a gate: its state and its end. It kills the gate (`kill`), switches its mode (`switch`), stores
//! guarded words once nothing is held (`words`), and revives the gate (`revival`).

mod kill;
mod revival;
mod switch;
mod words;

use crate::erased::percpu_core::{PASS_LIMIT, Phase, Start};
use crate::erased::percpu_gate::control_seat::ControlSeat;
use crate::erased::percpu_gate::exit::ExitWhy;
use crate::erased::percpu_gate::gate::Gate;
use crate::erased::percpu_gate::pass::Pass;
use crate::erased::percpu_words::Mode;

/// The one control of a gate. It kills the gate, and knows the phase and the numbers of kills and releases.
///
/// It moves between threads by ownership.
pub struct Control<const W: usize> {
    seat: ControlSeat,
    phase: Phase,
    kills: u64,
    front: u64,
    releases: u64,
    words: [u64; W],
    passes: u32,
    /// The sum of the deltas of the slots that a kill has closed and not yet collected.
    uncollected: i64,
    wants: Mode,
}

impl<const W: usize> Control<W> {
    /// The control of a new gate that has made this many passes.
    ///
    /// # Preconditions
    ///
    /// - `passes` is at most `PASS_LIMIT`.
    /// - For some `slots` `seat.view` is `first_control(opening(slots, passes, start, 0, words))`.
    pub(crate) fn new(seat: ControlSeat, start: Start, words: [u64; W], passes: u32) -> Control<W> {
        debug_assert!(passes <= PASS_LIMIT);
        Control {
            seat,
            phase: start.phase(),
            kills: 0,
            front: start.front(0),
            releases: 0,
            words,
            passes,
            uncollected: 0,
            wants: start.mode(),
        }
    }

    /// The phase: live, closing, collected, confirmed or dead.
    #[inline]
    pub fn phase(&self) -> Phase {
        self.phase
    }

    /// The number of kills so far.
    #[inline]
    pub fn kills(&self) -> u64 {
        self.kills
    }

    /// The mode of a live gate; of a dead gate, or during a kill, the mode in which it will be revived. Linux:
    /// `force_atomic` (lib/percpu-refcount.c).
    #[inline]
    pub fn wants(&self) -> Mode {
        self.wants
    }

    /// The number of releases that the control and the retired passes have won.
    #[inline]
    pub fn releases(&self) -> u64 {
        self.releases
    }

    /// The number of passes that aren't retired.
    #[inline]
    pub fn passes(&self) -> u32 {
        self.passes
    }

    /// Ends a pass that holds nothing, and adds its releases to the control's.
    ///
    /// # Preconditions
    ///
    /// - `self` belongs to `gate`.
    /// - `pass` belongs to `gate`.
    /// - `pass.held()` is 0.
    pub fn retire(&mut self, gate: &Gate<W>, pass: Pass<W>) {
        debug_assert!(pass.held() == 0);
        let (seat, releases) = pass.into_parts();
        self.seat.take_in(&gate.table, seat);
        // Always so, by the laws: this pass was counted.
        if self.passes > 0 {
            self.releases += releases;
            self.passes -= 1;
        }
    }

    /// Why the gate may not end if this many passes are out: MidSwitch, PassesOut. Don't count passes that were never
    /// handed out, if they are retired before the end. Linux: `percpu_ref_exit` (lib/percpu-refcount.c).
    pub fn refuse_exit(&self, out: u32) -> Option<ExitWhy> {
        if self.phase.is_mid_switch() {
            Some(ExitWhy::MidSwitch)
        } else if out > 0 {
            Some(ExitWhy::PassesOut(out))
        } else {
            None
        }
    }

    /// The seat of a control that ends.
    pub(crate) fn into_seat(self) -> ControlSeat {
        self.seat
    }
}
