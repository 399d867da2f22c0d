// Erased from crates/percpu_gate_c/src/open_control.rt by tools/erase: edit that file.
//! The box of an open control handle.

use crate::erased::c_answers::{DrawnNumber, Misuse};
use crate::erased::percpu_gate::{
    Control, ControlFault, ExitWhy, Gate, PASS_LIMIT, Pass, Phase, Put, Revived, SLOT_LIMIT, Start,
};
use crate::erased::percpu_gate_c::life::Final;
use crate::erased::percpu_gate_c::open_pass::{OpenPass, WORDS};
use crate::erased::pointers::{Arc, TryBox};
use alloc::boxed::Box;
use alloc::vec::Vec;

/// The control with its gate, the gate's number, and the passes that no handle has had yet.
#[repr(C)]
pub struct OpenControl {
    before: [u64; 16],
    gate: Arc<Gate<WORDS>>,
    number: DrawnNumber,
    waiting: Vec<Pass<WORDS>>,
    spare: Option<Pass<WORDS>>,
    control: Control<WORDS>,
    after: [u64; 16],
}

/// Takes in a pass that nobody asked for.
///
/// # Preconditions
///
/// - `control` belongs to `gate`.
/// - `pass` is `fresh_pass(gate)`.
fn take_in(gate: &Gate<WORDS>, control: &mut Control<WORDS>, pass: Pass<WORDS>) {
    control.retire(gate, pass);
}

/// Takes in passes that nobody asked for.
///
/// # Preconditions
///
/// - `control` belongs to `gate`.
/// - For each `p` of `waiting` `p` is `fresh_pass(gate)`.
/// - If `spare` is `Some(p)`, then `p` is `fresh_pass(gate)`.
fn take_in_all(
    gate: &Gate<WORDS>,
    control: &mut Control<WORDS>,
    waiting: Vec<Pass<WORDS>>,
    spare: Option<Pass<WORDS>>,
) {
    for pass in waiting {
        take_in(gate, control, pass);
    }
    if let Some(pass) = spare {
        take_in(gate, control, pass);
    }
}

impl OpenControl {
    /// Makes the control of a new gate. Refuses with Size or Memory.
    pub fn new(
        number: DrawnNumber,
        slots: u32,
        passes: u32,
        start: Start,
        words: &[u64; WORDS],
    ) -> Result<OpenControl, Misuse> {
        if slots == 0 || slots > SLOT_LIMIT || passes == 0 || passes > PASS_LIMIT {
            return Err(Misuse::Size);
        }
        let Ok((gate, control, waiting)) = Gate::new(slots, passes, start, *words) else {
            return Err(Misuse::Memory);
        };
        let Ok(gate) = Arc::try_new(gate) else {
            return Err(Misuse::Memory);
        };
        Ok(OpenControl { before: [0; 16], gate, number, waiting, spare: None, control, after: [0; 16] })
    }

    /// The next pass that no handle has had yet. Refuses with NoneWaits or Memory.
    pub fn next_pass(&mut self) -> Result<Box<OpenPass>, Misuse> {
        let next = match self.spare.take() {
            Some(pass) => Some(pass),
            None => self.waiting.pop(),
        };
        let Some(pass) = next else {
            return Err(Misuse::NoneWaits);
        };
        let Ok(gate) = Arc::try_clone(&self.gate) else {
            self.spare = Some(pass);
            return Err(Misuse::Memory);
        };
        match Box::try_from_value(OpenPass::new(gate, self.number, pass)) {
            Ok(open) => Ok(open),
            Err(back) => {
                self.spare = Some(back.value.into_pass());
                Err(Misuse::Memory)
            }
        }
    }

    /// Kills the gate.
    pub fn kill(&mut self) -> Result<Result<Put, ControlFault>, Misuse> {
        Ok(self.control.kill(&self.gate))
    }

    /// Begins a kill. Returns the number of slots that have to be closed.
    pub fn mark_dead(&mut self) -> Result<Result<u32, ControlFault>, Misuse> {
        Ok(self.control.mark_dead(&self.gate))
    }

    /// Closes the next slot of a kill. Returns its delta. Refuses with Step.
    pub fn close_next(&mut self) -> Result<i64, Misuse> {
        match self.control.phase() {
            Phase::Closing(closed) if closed < self.gate.slots() => Ok(self.control.close_next(&self.gate)),
            _ => Err(Misuse::Step),
        }
    }

    /// Collects the slots that a kill has closed. Refuses with Step.
    pub fn collect(&mut self) -> Result<(), Misuse> {
        match self.control.phase() {
            Phase::Closing(closed) if closed == self.gate.slots() => {
                self.control.collect(&self.gate);
                Ok(())
            }
            _ => Err(Misuse::Step),
        }
    }

    /// Confirms a kill. Returns its front. Refuses with Step.
    pub fn confirm(&mut self) -> Result<u64, Misuse> {
        match self.control.phase() {
            Phase::Collected => Ok(self.control.confirm(&self.gate)),
            _ => Err(Misuse::Step),
        }
    }

    /// Drops the initial reference, which ends a kill. Refuses with Step.
    pub fn drop_base(&mut self) -> Result<Put, Misuse> {
        match self.control.phase() {
            Phase::Confirmed => Ok(self.control.drop_base(&self.gate)),
            _ => Err(Misuse::Step),
        }
    }

    /// The phase of the control.
    pub fn phase(&mut self) -> Result<Phase, Misuse> {
        Ok(self.control.phase())
    }

    /// Whether the count has reached zero.
    pub fn is_zero(&mut self) -> bool {
        self.control.is_zero(&self.gate)
    }

    /// Revives a gate at zero.
    pub fn reinit(&mut self) -> Result<Result<(), ControlFault>, Misuse> {
        Ok(self.control.reinit(&self.gate))
    }

    /// Revives a dead gate.
    pub fn resurrect(&mut self) -> Result<Result<Revived, ControlFault>, Misuse> {
        Ok(self.control.resurrect(&self.gate))
    }

    /// Counts on the shared word alone from now on.
    pub fn switch_to_atomic(&mut self) -> Result<Result<(), ControlFault>, Misuse> {
        Ok(self.control.switch_to_atomic(&self.gate))
    }

    /// Counts on slots from now on.
    pub fn switch_to_slots(&mut self) -> Result<Result<(), ControlFault>, Misuse> {
        Ok(self.control.switch_to_slots(&self.gate))
    }

    /// Stores a guarded word. Refuses with Word.
    pub fn store_word(&mut self, k: u32, v: u64) -> Result<Result<(), ControlFault>, Misuse> {
        if k as usize >= WORDS {
            return Err(Misuse::Word);
        }
        Ok(self.control.store_word(&self.gate, k, v))
    }

    /// The number of kills so far.
    pub fn kills(&mut self) -> Result<u64, Misuse> {
        Ok(self.control.kills())
    }

    /// The number of releases of the control and of retired passes.
    pub fn releases(&mut self) -> Result<u64, Misuse> {
        Ok(self.control.releases())
    }

    /// The guarded words.
    pub fn words(&mut self) -> Result<[u64; WORDS], Misuse> {
        Ok(self.control.words())
    }

    /// Why this pass may not be retired. Refuses with Foreign or StillHeld.
    pub fn refuse_retire(&self, pass: &OpenPass) -> Result<(), Misuse> {
        let number = pass.number();
        if self.number.counter != number.counter || self.number.drawn != number.drawn {
            Err(Misuse::Foreign)
        } else if pass.held() != 0 {
            Err(Misuse::StillHeld)
        } else {
            Ok(())
        }
    }

    /// Ends a pass.
    ///
    /// # Preconditions
    ///
    /// - `pass.pass.gate` is `self.control.gate`.
    /// - `pass.pass.view.standing.held` is 0.
    pub fn retire(&mut self, pass: OpenPass) {
        self.control.retire(&self.gate, pass.into_pass());
    }

    /// The number of its gate.
    pub fn number(&self) -> DrawnNumber {
        self.number
    }

    /// The number of passes that were given out and aren't retired.
    fn given_out(&self) -> u32 {
        let waiting = self.waiting.len() + usize::from(self.spare.is_some());
        (self.control.passes() as usize).saturating_sub(waiting) as u32
    }

    /// Why the gate may not end: 20, or 22.
    pub fn refuse_exit(&self) -> Option<ExitWhy> {
        self.control.refuse_exit(self.given_out())
    }

    /// Ends the gate, after taking in the passes that nobody asked for. Returns itself if somebody has a share of the
    /// gate, which no use of handles leads to.
    ///
    /// # Preconditions
    ///
    /// - `end_refusal(self)` is `None`.
    pub fn end(self) -> Result<Final, OpenControl> {
        let Self { before, gate, number, waiting, spare, mut control, after } = self;
        let gate = match Arc::try_unwrap(gate) {
            Ok(gate) => gate,
            Err(gate) => {
                return Err(OpenControl { before, gate, number, waiting, spare, control, after });
            }
        };
        take_in_all(&gate, &mut control, waiting, spare);
        let Ok(ended) = gate.exit(control) else {
            unreachable!();
        };
        let words = ended.words;
        Ok(Final { dead: ended.dead, kills: ended.kills, releases: ended.releases, words })
    }
}
