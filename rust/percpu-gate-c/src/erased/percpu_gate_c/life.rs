// Erased from crates/percpu_gate_c/src/life.rt by tools/erase: edit that file.
//! The beginning and the end of gates and their handles.

use crate::erased::c_answers::{DrawnNumber, Misuse, of_unit};
use crate::erased::percpu_gate::Start;
use crate::erased::percpu_gate_c::control_handle::ControlHandle;
use crate::erased::percpu_gate_c::open_control::OpenControl;
use crate::erased::percpu_gate_c::open_pass::WORDS;
use crate::erased::percpu_gate_c::pass_handle::PassHandle;

/// The last facts of a gate that has ended.
#[derive(Debug)]
#[repr(C)]
pub struct Final {
    pub dead: bool,
    pub kills: u64,
    pub releases: u64,
    pub words: [u64; WORDS],
}

/// The start with this number.
fn start_of(start: u32) -> Start {
    match start {
        0 => Start::Slots,
        1 => Start::Atomic,
        _ => Start::Dead,
    }
}

/// The control of a new gate, for a closed handle. Refuses with Open, Size or Memory.
fn make(
    control: &mut ControlHandle,
    number: &DrawnNumber,
    slots: u32,
    passes: u32,
    start: u32,
    words: &[u64; WORDS],
) -> Result<(), Misuse> {
    control.closed()?;
    if start > 2 {
        return Err(Misuse::Size);
    }
    let open = OpenControl::new(*number, slots, passes, start_of(start), words)?;
    control.open(open)
}

/// Makes a gate with this many slots (1 to 512) and passes (1 to 1,024) and with eight guarded words, for a closed
/// control handle. It starts with its slots open (0), with them closed (1), or dead and at zero (2). Refuses with Open,
/// Size or Memory. Linux: `percpu_ref_init` (lib/percpu-refcount.c).
#[unsafe(no_mangle)]
pub extern "C" fn percpu_gate_new_numbered(
    control: &mut ControlHandle,
    number: &DrawnNumber,
    slots: u32,
    passes: u32,
    start: u32,
    words: &[u64; WORDS],
) -> u32 {
    of_unit(make(control, number, slots, passes, start, words))
}

/// Gives the next pass of this control to a closed handle.
fn give(chosen: &mut OpenControl, pass: &mut PassHandle) -> Result<(), Misuse> {
    pass.closed()?;
    let given = chosen.next_pass()?;
    pass.put_back(given);
    Ok(())
}

/// Gives the next pass of the gate to a closed pass handle. Refuses with Closed, Open, NoneWaits or Memory.
#[unsafe(no_mangle)]
pub extern "C" fn percpu_gate_next_pass(control: &mut ControlHandle, pass: &mut PassHandle) -> u32 {
    let Some(mut open) = control.take() else {
        return of_unit(Err(Misuse::Closed));
    };
    let answer = give(&mut open, pass);
    control.put_back(open);
    of_unit(answer)
}

/// The number of a pass's gate, or 0 for a closed handle.
#[unsafe(no_mangle)]
pub extern "C" fn percpu_gate_pass_number(pass: &mut PassHandle) -> u64 {
    let Some(open) = pass.take() else {
        return 0;
    };
    let number = open.number().drawn;
    pass.put_back(open);
    number
}

/// The number of a control's gate, or 0 for a closed handle.
#[unsafe(no_mangle)]
pub extern "C" fn percpu_gate_control_number(control: &mut ControlHandle) -> u64 {
    let Some(open) = control.take() else {
        return 0;
    };
    let number = open.number().drawn;
    control.put_back(open);
    number
}

/// Frees the box of a pass handle, and closes it. If the pass wasn't retired, its gate counts it as out forever.
#[unsafe(no_mangle)]
pub extern "C" fn percpu_gate_free_pass(pass: &mut PassHandle) {
    drop(pass.take());
}

/// Frees the box of a control handle, and closes it.
#[unsafe(no_mangle)]
pub extern "C" fn percpu_gate_free_control(control: &mut ControlHandle) {
    drop(control.take());
}

/// Has the control take in the pass of a handle, unless that is refused.
///
/// # Preconditions
///
/// - `NumbersTell(chosen, pass.held.pass)`: gates of one number are one gate.
fn retire(chosen: &mut OpenControl, pass: &mut PassHandle) -> Result<(), Misuse> {
    let Some(given) = pass.take() else {
        return Err(Misuse::Closed);
    };
    if let Err(why) = chosen.refuse_retire(&given) {
        pass.put_back(given);
        return Err(why);
    }
    chosen.retire(*given);
    Ok(())
}

/// Ends a pass that holds nothing. Refuses with Closed, Foreign or StillHeld.
///
/// # Preconditions
///
/// - `NumbersTellOn(control.held.control, pass.held.pass)`.
#[unsafe(no_mangle)]
pub extern "C" fn percpu_gate_retire(control: &mut ControlHandle, pass: &mut PassHandle) -> u32 {
    let Some(mut open) = control.take() else {
        return of_unit(Err(Misuse::Closed));
    };
    let answer = retire(&mut open, pass);
    control.put_back(open);
    of_unit(answer)
}

/// Ends a gate, and closes the handle; takes in the passes that nobody asked for. Refuses with Closed; returns 20
/// during a kill, and 22 if passes that were given out aren't retired. If somebody else has a share of the gate, which
/// no use of handles leads to, it returns InUse with everything unchanged, or Memory if the control gets no new box:
/// then the control is gone. Linux: `percpu_ref_exit` (lib/percpu-refcount.c).
#[unsafe(no_mangle)]
pub extern "C" fn percpu_gate_exit(control: &mut ControlHandle, last: &mut Final) -> u32 {
    let Some(open) = control.take() else {
        return Misuse::Closed.number();
    };
    if let Some(why) = open.refuse_exit() {
        control.put_back(open);
        return 16 + u32::from(why.number());
    }
    match open.end() {
        Ok(ended) => {
            *last = ended;
            0
        }
        Err(back) => match control.open(back) {
            Ok(()) => Misuse::InUse.number(),
            Err(why) => why.number(),
        },
    }
}
