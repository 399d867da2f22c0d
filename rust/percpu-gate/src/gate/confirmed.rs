//! The end of a kill, which is reached even if the confirmation panics.
use super::Gate;
use crate::outcomes::Killed;

/// A confirmed kill. It is completed exactly once, even if the closure panics.
pub(super) struct Confirmed<'c> {
    gate: Option<&'c mut Gate>,
}

impl<'c> Confirmed<'c> {
    pub(super) fn of(gate: &'c mut Gate) -> Confirmed<'c> {
        Confirmed { gate: Some(gate) }
    }

    pub(super) fn end(mut self) -> Killed {
        let gate = self.gate.take().expect("it is there until the end");
        drop_base(gate)
    }
}

impl Drop for Confirmed<'_> {
    fn drop(&mut self) {
        if let Some(gate) = self.gate.take() {
            drop_base(gate);
        }
    }
}

fn drop_base(gate: &mut Gate) -> Killed {
    let put = gate.erased.get_mut().drop_base(&gate.shared.gate);
    gate.ended_by(put)
}
