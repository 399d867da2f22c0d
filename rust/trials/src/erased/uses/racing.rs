// Erased from crates/uses/src/racing.rt by tools/erase: edit that file.
//! A request that races with the removal of its device.

use crate::erased::percpu_gate::{Control, Gate, Pass, Put};
use crate::erased::thread;
use crate::erased::uses::removal::{Served, remove, serve};

/// The results of a request, and of the removal of its device.
#[derive(Clone, Copy, Debug, PartialEq, Eq)]
pub struct Raced {
    pub served: Served,
    pub removed: Put,
}

/// # Preconditions
///
/// - `pass` belongs to `gate`.
/// - `gate.slots()` is at least 1.
/// - `pass.view.standing` is `holding(0)`.
fn served_by(gate: &Gate<1>, mut pass: Pass<1>) -> (Pass<1>, Served) {
    debug_assert!(0 < gate.slots());
    let served = serve(gate, &mut pass, 0);
    (pass, served)
}

/// # Preconditions
///
/// - `control` belongs to `gate`.
/// - `kill_refusal(control.view.standing.phase, control.kills())` is `None`.
fn removed_by(gate: &Gate<1>, mut control: Control<1>) -> (Control<1>, Put) {
    match remove(gate, &mut control) {
        Ok(put) => (control, put),
        Err(_) => unreachable!(),
    }
}

/// Runs a request on this thread while another thread removes its device; then the gate ends. In every interleaving of their steps
/// exactly one of the two puts the last reference, and so the device is freed once.
///
/// # Preconditions
///
/// - `pass` belongs to `gate`.
/// - `control` belongs to `gate`.
/// - `gate.slots()` is at least 1.
/// - `pass.view.standing` is `holding(0)`.
/// - `pass.view.releases` is 0.
/// - `kill_refusal(control.view.standing.phase, control.kills())` is `None`.
/// - `control.passes()` is 1.
/// - `starts_dead(gate.start)` is `false`.
/// - `control.releases()` is 0.
/// - `control.view.zeros_cleared` is 0.
pub fn race(gate: Gate<1>, pass: Pass<1>, control: Control<1>) -> Raced {
    debug_assert!(0 < gate.slots());
    debug_assert!(control.passes() == 1);
    debug_assert!(control.releases() == 0);
    let shared = &gate;
    let ((mut control, removed), (pass, served)) = thread::join(
        move || -> (Control<1>, Put) { removed_by(shared, control) },
        move || -> (Pass<1>, Served) { served_by(shared, pass) },
    );
    control.retire(&gate, pass);
    match gate.exit(control) {
        Ok(_) => Raced { served, removed },
        Err(_) => unreachable!(),
    }
}
