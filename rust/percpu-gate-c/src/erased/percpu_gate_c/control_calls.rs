// Erased from crates/percpu_gate_c/src/control_calls.rt by tools/erase: edit that file.
//! The calls of the control. A closed handle returns Closed, or false from a question.

use crate::erased::c_answers::{Misuse, write};
use crate::erased::percpu_gate_c::control_handle::ControlHandle;
use crate::erased::percpu_gate_c::number::{of_done, of_kill, of_revived};
use crate::erased::percpu_gate_c::open_pass::WORDS;

/// Kills the gate. 1 is the release. Linux: `percpu_ref_kill` (include/linux/percpu-refcount.h).
#[unsafe(no_mangle)]
pub extern "C" fn percpu_gate_kill(control: &mut ControlHandle) -> u32 {
    let Some(mut open) = control.take() else {
        return of_kill(Err(Misuse::Closed));
    };
    let answer = open.kill();
    control.put_back(open);
    of_kill(answer)
}

/// Whether the count has reached zero. Linux: `percpu_ref_is_zero` (lib/percpu-refcount.c).
#[unsafe(no_mangle)]
pub extern "C" fn percpu_gate_control_is_zero(control: &mut ControlHandle) -> bool {
    let Some(mut open) = control.take() else {
        return false;
    };
    let yes = open.is_zero();
    control.put_back(open);
    yes
}

/// Revives a gate that has reached zero. Linux: `percpu_ref_reinit` (lib/percpu-refcount.c).
#[unsafe(no_mangle)]
pub extern "C" fn percpu_gate_reinit(control: &mut ControlHandle) -> u32 {
    let Some(mut open) = control.take() else {
        return of_done(Err(Misuse::Closed));
    };
    let answer = open.reinit();
    control.put_back(open);
    of_done(answer)
}

/// Revives a dead gate. Returns 4 if it had reached zero. Linux: `percpu_ref_resurrect` (lib/percpu-refcount.c).
#[unsafe(no_mangle)]
pub extern "C" fn percpu_gate_resurrect(control: &mut ControlHandle) -> u32 {
    let Some(mut open) = control.take() else {
        return of_revived(Err(Misuse::Closed));
    };
    let answer = open.resurrect();
    control.put_back(open);
    of_revived(answer)
}

/// Counts on the shared word alone from now on. Linux: `percpu_ref_switch_to_atomic_sync`
/// (lib/percpu-refcount.c).
#[unsafe(no_mangle)]
pub extern "C" fn percpu_gate_switch_to_atomic(control: &mut ControlHandle) -> u32 {
    let Some(mut open) = control.take() else {
        return of_done(Err(Misuse::Closed));
    };
    let answer = open.switch_to_atomic();
    control.put_back(open);
    of_done(answer)
}

/// Counts on slots from now on. Linux: `percpu_ref_switch_to_percpu` (lib/percpu-refcount.c).
#[unsafe(no_mangle)]
pub extern "C" fn percpu_gate_switch_to_slots(control: &mut ControlHandle) -> u32 {
    let Some(mut open) = control.take() else {
        return of_done(Err(Misuse::Closed));
    };
    let answer = open.switch_to_slots();
    control.put_back(open);
    of_done(answer)
}

/// Stores the guarded word `k`, while the gate is dead and at zero.
#[unsafe(no_mangle)]
pub extern "C" fn percpu_gate_store_word(control: &mut ControlHandle, k: u32, v: u64) -> u32 {
    let Some(mut open) = control.take() else {
        return of_done(Err(Misuse::Closed));
    };
    let answer = open.store_word(k, v);
    control.put_back(open);
    of_done(answer)
}

/// Writes the number of kills so far.
#[unsafe(no_mangle)]
pub extern "C" fn percpu_gate_kill_count(control: &mut ControlHandle, kills: &mut u64) -> u32 {
    let Some(mut open) = control.take() else {
        return write(Err(Misuse::Closed), kills);
    };
    let answer = open.kills();
    control.put_back(open);
    write(answer, kills)
}

/// Writes the number of releases of the control and of retired passes.
#[unsafe(no_mangle)]
pub extern "C" fn percpu_gate_release_count(control: &mut ControlHandle, releases: &mut u64) -> u32 {
    let Some(mut open) = control.take() else {
        return write(Err(Misuse::Closed), releases);
    };
    let answer = open.releases();
    control.put_back(open);
    write(answer, releases)
}

/// Writes the guarded words. (A pass reads them one by one while it holds a reference.)
#[unsafe(no_mangle)]
pub extern "C" fn percpu_gate_all_words(control: &mut ControlHandle, words: &mut [u64; WORDS]) -> u32 {
    let Some(mut open) = control.take() else {
        return write(Err(Misuse::Closed), words);
    };
    let answer = open.words();
    control.put_back(open);
    write(answer, words)
}
