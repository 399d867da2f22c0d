// Erased from crates/percpu_gate_c/src/kill_steps.rt by tools/erase: edit that file.
//! The steps of a kill one by one, for C that acts at its confirmation. A closed handle returns Closed, and a step out
//! of its turn returns Step.

use crate::erased::c_answers::{Misuse, of_put, of_unit, write};
use crate::erased::percpu_gate_c::control_handle::ControlHandle;
use crate::erased::percpu_gate_c::number::{of_closed, of_phase, write_slots};

/// Begins a kill, and writes how many slots have to be closed now: 0 if all counts are on the shared word. Linux:
/// `percpu_ref_kill_and_confirm` (lib/percpu-refcount.c), which sets `__PERCPU_REF_DEAD`.
#[unsafe(no_mangle)]
pub extern "C" fn percpu_gate_mark_dead(control: &mut ControlHandle, slots: &mut u32) -> u32 {
    let Some(mut open) = control.take() else {
        return write_slots(Err(Misuse::Closed), slots);
    };
    let answer = open.mark_dead();
    control.put_back(open);
    write_slots(answer, slots)
}

/// Closes the next slot of a kill. Linux: the switch to atomic mode in `percpu_ref_kill_and_confirm`
/// (lib/percpu-refcount.c).
#[unsafe(no_mangle)]
pub extern "C" fn percpu_gate_close_next(control: &mut ControlHandle) -> u32 {
    let Some(mut open) = control.take() else {
        return of_closed(Err(Misuse::Closed));
    };
    let answer = open.close_next();
    control.put_back(open);
    of_closed(answer)
}

/// Adds what was counted on the closed slots to the shared word. Linux: `percpu_ref_switch_to_atomic_rcu`
/// (lib/percpu-refcount.c).
#[unsafe(no_mangle)]
pub extern "C" fn percpu_gate_collect(control: &mut ControlHandle) -> u32 {
    let Some(mut open) = control.take() else {
        return of_unit(Err(Misuse::Closed));
    };
    let answer = open.collect();
    control.put_back(open);
    of_unit(answer)
}

/// Confirms a kill, and writes its odd front. Linux: the `confirm_kill` callback of `percpu_ref_kill_and_confirm`
/// (lib/percpu-refcount.c).
#[unsafe(no_mangle)]
pub extern "C" fn percpu_gate_confirm(control: &mut ControlHandle, front: &mut u64) -> u32 {
    let Some(mut open) = control.take() else {
        return write(Err(Misuse::Closed), front);
    };
    let answer = open.confirm();
    control.put_back(open);
    write(answer, front)
}

/// Drops the initial reference, which ends a kill. 1 is the release. Linux: the put of
/// `percpu_ref_kill_and_confirm` (lib/percpu-refcount.c).
#[unsafe(no_mangle)]
pub extern "C" fn percpu_gate_drop_base(control: &mut ControlHandle) -> u32 {
    let Some(mut open) = control.take() else {
        return of_put(Err(Misuse::Closed));
    };
    let answer = open.drop_base();
    control.put_back(open);
    of_put(answer)
}

/// The number of the control's phase: live on slots (0), live on the shared word alone (1), closing (2), collected
/// (3), confirmed (4), dead (5).
#[unsafe(no_mangle)]
pub extern "C" fn percpu_gate_phase(control: &mut ControlHandle) -> u32 {
    let Some(mut open) = control.take() else {
        return of_phase(Err(Misuse::Closed));
    };
    let answer = open.phase();
    control.put_back(open);
    of_phase(answer)
}
