// Erased from crates/percpu_gate_c/src/lib.rt by tools/erase: edit that file.
//! The gate for C programs: one export for each call of a pass and of the control of `percpu_gate`. C reads
//! include/percpu_gate.h.
//!
//! C has a handle for the control and one for each pass, a `bool` and a pointer, zero while closed (`control_handle`,
//! `pass_handle`). An open handle leads to a box that C can't look into (`control_held`, `pass_held`, over the crate
//! `loose_box`): a share of the gate beside the control or the pass (`open_control`, `open_pass`). So freeing a handle
//! doesn't take the gate from the others.
//!
//! Each export (`pass_calls`, `control_calls`, `kill_steps`, `life`) takes the box out of the handle, makes the call
//! and puts the box back. Misuse by C is tested before the gate is called, and returns a number of `Misuse` (the crate
//! `c_answers`); the results of the gate have their numbers in `number`. `retire` takes two handles, and knows by the
//! gate's `DrawnNumber` whether they are of one gate.

mod control_calls;
mod control_handle;
mod control_held;
mod kill_steps;
mod life;
mod number;
mod open_control;
mod open_pass;
mod pass_calls;
mod pass_handle;
mod pass_held;
#[cfg(test)]
mod tests;
