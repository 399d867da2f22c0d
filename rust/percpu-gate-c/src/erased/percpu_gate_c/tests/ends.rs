// Erased from crates/percpu_gate_c/src/tests/ends.rt by tools/erase: edit that file.
//! Passes that are retired, and gates that end. `percpu_gate_retire` requires that gates of one number are one gate, so
//! the helpers say that this still holds of the two handles.

use super::WORDS;
use crate::erased::c_answers::DrawnNumber;
use crate::erased::fallible::Fail;
use crate::erased::percpu_gate_c::control_calls::{
    percpu_gate_control_is_zero, percpu_gate_kill, percpu_gate_release_count, percpu_gate_resurrect,
};
use crate::erased::percpu_gate_c::control_handle::ControlHandle;
use crate::erased::percpu_gate_c::life::{
    Final, percpu_gate_control_number, percpu_gate_exit, percpu_gate_free_control, percpu_gate_free_pass,
    percpu_gate_new_numbered, percpu_gate_next_pass, percpu_gate_pass_number, percpu_gate_retire,
};
use crate::erased::percpu_gate_c::pass_calls::{percpu_gate_is_dying, percpu_gate_put, percpu_gate_try_get_live};
use crate::erased::percpu_gate_c::pass_handle::PassHandle;
use alloc::format;

/// The value before a gate has ended.
const NOT_YET: Final = Final { dead: false, kills: 9, releases: 9, words: [0; 8] };

/// Returns the handles of a new gate with two slots and one pass.
fn of_one_gate(drawn: u64) -> (ControlHandle, PassHandle) {
    let mut control = ControlHandle::new();
    let mut pass = PassHandle::new();
    let number = DrawnNumber { counter: 5, drawn };
    let made = percpu_gate_new_numbered(&mut control, &number, 2, 1, 0, &WORDS);
    assert!(made == 0);
    let given = percpu_gate_next_pass(&mut control, &mut pass);
    assert!(given == 0);
    (control, pass)
}

/// # Preconditions
///
/// - `NumbersTellOn(control.held.control, pass.held.pass)`.
fn take(_control: &ControlHandle, pass: &mut PassHandle) -> u32 {
    percpu_gate_try_get_live(pass, 1)
}

/// # Preconditions
///
/// - `NumbersTellOn(control.held.control, pass.held.pass)`.
fn put(_control: &ControlHandle, pass: &mut PassHandle) -> u32 {
    percpu_gate_put(pass, 0, 1)
}

/// # Preconditions
///
/// - `NumbersTellOn(control.held.control, pass.held.pass)`.
fn kill(control: &mut ControlHandle, _pass: &PassHandle) -> u32 {
    percpu_gate_kill(control)
}

/// # Preconditions
///
/// - `NumbersTellOn(control.held.control, pass.held.pass)`.
fn resurrect(control: &mut ControlHandle, _pass: &PassHandle) -> u32 {
    percpu_gate_resurrect(control)
}

/// # Preconditions
///
/// - `NumbersTellOn(control.held.control, pass.held.pass)`.
fn exit(control: &mut ControlHandle, _pass: &PassHandle, last: &mut Final) -> u32 {
    percpu_gate_exit(control, last)
}

#[test]
fn a_whole_life() {
    let (mut control, mut pass) = of_one_gate(1);
    let mut last = NOT_YET;
    let mut releases = 0;
    assert!(take(&control, &mut pass) == 0);
    assert!(kill(&mut control, &pass) == 0);
    assert!(exit(&mut control, &pass, &mut last) == 22);
    assert!(last.kills == 9);
    assert!(put(&control, &mut pass) == 1);
    assert!(percpu_gate_retire(&mut control, &mut pass) == 0);
    assert!(percpu_gate_put(&mut pass, 0, 1) == 32);
    assert!(percpu_gate_release_count(&mut control, &mut releases) == 0);
    assert!(releases == 1);
    assert!(percpu_gate_exit(&mut control, &mut last) == 0);
    assert!((last.dead, last.kills, last.releases) == (true, 1, 1));
    assert!(last.words == WORDS);
    assert!(percpu_gate_exit(&mut control, &mut last) == 32);
}

/// Three kills, two of which reached zero: each field of the final facts has a number of its own, in its place.
#[test]
fn what_is_left() -> Result<(), Fail> {
    let (mut control, mut pass) = of_one_gate(1);
    let mut last = NOT_YET;
    assert!(take(&control, &mut pass) == 0);
    assert!(kill(&mut control, &pass) == 0);
    assert!(resurrect(&mut control, &pass) == 0);
    assert!(put(&control, &mut pass) == 0);
    assert!(kill(&mut control, &pass) == 1);
    assert!(resurrect(&mut control, &pass) == 4);
    assert!(kill(&mut control, &pass) == 1);
    assert!(percpu_gate_retire(&mut control, &mut pass) == 0);
    assert!(percpu_gate_exit(&mut control, &mut last) == 0);
    assert!(last.dead);
    assert!(last.kills == 3);
    assert!(last.releases == 2);
    assert!(last.words == WORDS);
    let told = format!("{last:?}");
    let wanted = "Final { dead: true, kills: 3, releases: 2, words: [7, 1, 2, 3, 4, 5, 6, 9] }";
    assert!(told.as_str() == wanted);
    Ok(())
}

/// Of three passes one was never asked for: it ends with the gate, but a pass that was given out doesn't.
#[test]
fn passes_that_nobody_asked_for() {
    let mut control = ControlHandle::new();
    let mut pass = PassHandle::new();
    let mut last = NOT_YET;
    let number = DrawnNumber { counter: 5, drawn: 6 };
    assert!(percpu_gate_new_numbered(&mut control, &number, 2, 3, 2, &WORDS) == 0);
    assert!(percpu_gate_exit(&mut control, &mut last) == 0);
    assert!((last.dead, last.kills, last.releases) == (true, 0, 0));
    assert!(percpu_gate_new_numbered(&mut control, &number, 2, 3, 0, &WORDS) == 0);
    assert!(percpu_gate_next_pass(&mut control, &mut pass) == 0);
    assert!(percpu_gate_exit(&mut control, &mut last) == 22);
    assert!(percpu_gate_pass_number(&mut pass) == 6);
    assert!(percpu_gate_control_number(&mut control) == 6);
    percpu_gate_free_pass(&mut pass);
    assert!(percpu_gate_exit(&mut control, &mut last) == 22);
    percpu_gate_free_control(&mut control);
    assert!(percpu_gate_pass_number(&mut pass) == 0);
    assert!(percpu_gate_control_number(&mut control) == 0);
}

#[test]
fn a_pass_that_holds_is_not_retired() {
    let (mut control, mut pass) = of_one_gate(1);
    assert!(take(&control, &mut pass) == 0);
    assert!(percpu_gate_retire(&mut control, &mut pass) == 66);
    assert!(percpu_gate_put(&mut pass, 0, 1) == 0);
    percpu_gate_free_pass(&mut pass);
    percpu_gate_free_control(&mut control);
}

#[test]
fn a_pass_of_another_gate() {
    let (mut first, mut pass) = of_one_gate(1);
    let (mut second, mut other) = of_one_gate(2);
    assert!(percpu_gate_retire(&mut second, &mut pass) == 38);
    assert!(percpu_gate_try_get_live(&mut pass, 0) == 0);
    assert!(percpu_gate_kill(&mut second) == 1);
    assert!(percpu_gate_put(&mut pass, 0, 1) == 0);
    percpu_gate_free_pass(&mut pass);
    percpu_gate_free_pass(&mut other);
    percpu_gate_free_control(&mut first);
    percpu_gate_free_control(&mut second);
}

/// What a freed pass held stays held forever: no call returns that the last reference is gone.
#[test]
fn a_freed_pass_holds_on() {
    let (mut control, mut pass) = of_one_gate(1);
    assert!(percpu_gate_try_get_live(&mut pass, 0) == 0);
    percpu_gate_free_pass(&mut pass);
    assert!(percpu_gate_kill(&mut control) == 0);
    assert!(!percpu_gate_control_is_zero(&mut control));
    percpu_gate_free_control(&mut control);
}

/// The passes of a freed control go on counting: nobody has killed their gate.
#[test]
fn a_freed_control_leaves_its_gate_live() {
    let (mut control, mut pass) = of_one_gate(1);
    percpu_gate_free_control(&mut control);
    assert!(!percpu_gate_is_dying(&mut pass));
    assert!(percpu_gate_try_get_live(&mut pass, 0) == 0);
    assert!(percpu_gate_put(&mut pass, 0, 1) == 0);
    percpu_gate_free_pass(&mut pass);
}

/// The largest gate is made if there is memory, and gives each of its passes once.
#[test]
fn the_greatest_gate() {
    let mut control = ControlHandle::new();
    let mut pass = PassHandle::new();
    let mut last = NOT_YET;
    let number = DrawnNumber { counter: 5, drawn: 6 };
    assert!(percpu_gate_new_numbered(&mut control, &number, 512, 1_024, 0, &WORDS) == 0);
    for _ in 0..1_024u32 {
        assert!(percpu_gate_next_pass(&mut control, &mut pass) == 0);
        percpu_gate_free_pass(&mut pass);
    }
    assert!(percpu_gate_next_pass(&mut control, &mut pass) == 39);
    assert!(percpu_gate_exit(&mut control, &mut last) == 22);
    percpu_gate_free_control(&mut control);
}

/// Asking for a pass when none is left takes no share of the gate, which ends.
#[test]
fn no_pass_takes_no_share() {
    let (mut control, mut pass) = of_one_gate(1);
    let mut last = NOT_YET;
    assert!(percpu_gate_retire(&mut control, &mut pass) == 0);
    assert!(percpu_gate_next_pass(&mut control, &mut pass) == 39);
    assert!(percpu_gate_exit(&mut control, &mut last) == 0);
}

/// Two hundred gates in turn, each with another number, are made, give a pass and end: there is memory for all.
#[test]
fn gates_in_turn() {
    for drawn in 1..201u64 {
        let (mut control, mut pass) = of_one_gate(drawn);
        let mut last = NOT_YET;
        let retired = percpu_gate_retire(&mut control, &mut pass);
        assert!(retired == 0, "{drawn}");
        let ended = percpu_gate_exit(&mut control, &mut last);
        assert!(ended == 0, "{drawn}");
    }
}
