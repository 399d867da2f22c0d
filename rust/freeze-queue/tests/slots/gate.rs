//! The gate, whose passes and control log what they do: on which slot a pass counts, which thread it was, and which mode the control
//! switches to.

use crate::erased::gates;
pub use crate::erased::gates::{ControlFault, ExitWhy, Final, Memory, Mode, Phase, Put, Start, Tried};
use std::cell::{Cell, RefCell};
use std::mem;
use std::ops::{Deref, DerefMut};
use std::sync::{Arc, Mutex};
use std::thread::{self, ThreadId};

/// What was done at a gate.
#[derive(Clone, Copy, Debug, PartialEq, Eq)]
pub enum Step {
    /// A pass took a reference on this slot.
    Taken(u32),
    /// A pass was refused one on this slot.
    Refused(u32),
    /// A pass dropped a reference on this slot.
    Dropped(u32),
    /// The control was to count in this mode.
    Switched(Mode),
    Killed,
    Revived,
    /// The control looked whether the count has reached zero.
    Looked,
}

/// What was done at a gate, and by which thread.
type Steps = Mutex<Vec<(ThreadId, Step)>>;

thread_local! {
    /// The log of the gates that this thread makes from now on.
    static STEPS: RefCell<Arc<Steps>> = RefCell::default();
    /// What this thread runs before it drops a reference.
    pub static BEFORE_DROP: Hook = Hook::default();
}

/// What a thread runs, once, at a step of its own.
#[derive(Default)]
pub struct Hook(Cell<Option<Box<dyn FnOnce()>>>);

impl Hook {
    pub fn set(&self, run: impl FnOnce() + 'static) {
        self.0.set(Some(Box::new(run)));
    }

    pub fn run(&self) {
        if let Some(run) = self.0.take() {
            run();
        }
    }
}

/// What is done at the gates that this thread makes.
pub struct Log(Arc<Steps>);

impl Log {
    pub fn begin() -> Log {
        let steps = Arc::default();
        STEPS.set(Arc::clone(&steps));
        Log(steps)
    }

    /// Returns what was done since the last call of this, and by which thread.
    pub fn by_thread(&self) -> Vec<(ThreadId, Step)> {
        mem::take(&mut self.0.lock().expect("a log"))
    }

    /// Returns what was done since the last call of this.
    pub fn steps(&self) -> Vec<Step> {
        self.by_thread().into_iter().map(|(_, step)| step).collect()
    }
}

pub struct Pass<const W: usize>(gates::Pass<W>);

impl<const W: usize> Pass<W> {
    pub fn try_get(&mut self, gate: &Gate<W>, slot: u32) -> Tried {
        gate.tried(self.0.try_get(gate, slot), slot)
    }

    pub fn try_get_live(&mut self, gate: &Gate<W>, slot: u32) -> Tried {
        gate.tried(self.0.try_get_live(gate, slot), slot)
    }

    pub fn put(&mut self, gate: &Gate<W>, slot: u32, n: u32) -> Put {
        BEFORE_DROP.with(Hook::run);
        gate.note(Step::Dropped(slot));
        self.0.put(gate, slot, n)
    }
}

impl<const W: usize> Deref for Pass<W> {
    type Target = gates::Pass<W>;

    fn deref(&self) -> &gates::Pass<W> {
        &self.0
    }
}

impl<const W: usize> DerefMut for Pass<W> {
    fn deref_mut(&mut self) -> &mut gates::Pass<W> {
        &mut self.0
    }
}

pub struct Control<const W: usize>(gates::Control<W>);

impl<const W: usize> Control<W> {
    pub fn kill(&mut self, gate: &Gate<W>) -> Result<Put, ControlFault> {
        gate.note(Step::Killed);
        self.0.kill(gate)
    }

    pub fn resurrect(&mut self, gate: &Gate<W>) -> Result<gates::Revived, ControlFault> {
        gate.note(Step::Revived);
        self.0.resurrect(gate)
    }

    pub fn is_zero(&mut self, gate: &Gate<W>) -> bool {
        gate.note(Step::Looked);
        self.0.is_zero(gate)
    }

    pub fn switch_to_atomic(&mut self, gate: &Gate<W>) -> Result<(), ControlFault> {
        gate.note(Step::Switched(Mode::Atomic));
        self.0.switch_to_atomic(gate)
    }

    pub fn switch_to_slots(&mut self, gate: &Gate<W>) -> Result<(), ControlFault> {
        gate.note(Step::Switched(Mode::Slots));
        self.0.switch_to_slots(gate)
    }

    pub fn retire(&mut self, gate: &Gate<W>, pass: Pass<W>) {
        self.0.retire(gate, pass.0);
    }
}

impl<const W: usize> Deref for Control<W> {
    type Target = gates::Control<W>;

    fn deref(&self) -> &gates::Control<W> {
        &self.0
    }
}

impl<const W: usize> DerefMut for Control<W> {
    fn deref_mut(&mut self) -> &mut gates::Control<W> {
        &mut self.0
    }
}

pub struct Gate<const W: usize> {
    gate: gates::Gate<W>,
    steps: Arc<Steps>,
}

/// A gate, its control and its passes.
pub type NewGate<const W: usize> = (Gate<W>, Control<W>, Vec<Pass<W>>);

impl<const W: usize> Gate<W> {
    pub fn new(slots: u32, passes: u32, start: Start, words: [u64; W]) -> Result<NewGate<W>, Memory> {
        let (gate, control, passes) = gates::Gate::new(slots, passes, start, words)?;
        let gate = Gate { gate, steps: STEPS.with_borrow(Arc::clone) };
        Ok((gate, Control(control), passes.into_iter().map(Pass).collect()))
    }

    pub fn exit(self, control: Control<W>) -> Result<Final<W>, ExitWhy> {
        self.gate.exit(control.0).map_err(|refused| refused.why)
    }

    fn note(&self, step: Step) {
        self.steps.lock().expect("a log").push((thread::current().id(), step));
    }

    fn tried(&self, tried: Tried, slot: u32) -> Tried {
        self.note(if tried == Tried::Given { Step::Taken(slot) } else { Step::Refused(slot) });
        tried
    }
}

impl<const W: usize> Deref for Gate<W> {
    type Target = gates::Gate<W>;

    fn deref(&self) -> &gates::Gate<W> {
        &self.gate
    }
}
