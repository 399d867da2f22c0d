// Erased from crates/uses/src/removal.rt by tools/erase: edit that file.
//! A device that may be removed while requests run on it.

use crate::erased::percpu_gate::{Control, ControlFault, Gate, Pass, Put, Tried};

/// The result of a request. If it has `Put::Last`, its caller frees the device: no thread uses it any more.
#[derive(Clone, Copy, Debug, PartialEq, Eq)]
pub enum Served {
    Done(Put),
    /// The device is being removed, so the request wasn't run. Its failed try held a reference briefly, and its put may be the last
    /// put too.
    Gone(Put),
}

/// Runs a request on a device, unless it is being removed. The device's setting is the guarded word 0.
///
/// Linux: `blk_try_enter_queue` and `blk_queue_exit` around a driver's work (block/blk.h, block/blk-core.c).
///
/// # Preconditions
///
/// - `pass` belongs to `gate`.
/// - `slot` is less than `gate.slots()`.
/// - `pass.view.standing` is `holding(0)`.
pub fn serve(gate: &Gate<1>, pass: &mut Pass<1>, slot: u32) -> Served {
    debug_assert!(slot < gate.slots());
    match pass.try_get_live(gate, slot) {
        Tried::Refused(put) => Served::Gone(put),
        Tried::Given => {
            let setting = pass.word(gate, 0);
            // Here the request works on the device, while others may remove it.
            let still = pass.word(gate, 0);
            debug_assert!(still == setting);
            Served::Done(pass.put(gate, slot, 1))
        }
    }
}

/// Removes the device: later requests aren't run. `Put::Last` means that no request is in flight.
///
/// Linux: `blk_queue_start_drain` (block/blk-core.c).
///
/// # Preconditions
///
/// - `control` belongs to `gate`.
pub fn remove(gate: &Gate<1>, control: &mut Control<1>) -> Result<Put, ControlFault> {
    control.kill(gate)
}
