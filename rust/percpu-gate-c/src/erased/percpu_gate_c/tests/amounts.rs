// Erased from crates/percpu_gate_c/src/tests/amounts.rt by tools/erase: edit that file.
//! The slots on which C's calls count: each amount, as a kill collects it.

use super::{NUMBER, WORDS};
use crate::erased::percpu_gate::{Put, Revived};
use crate::erased::percpu_gate_c::control_calls::percpu_gate_switch_to_slots;
use crate::erased::percpu_gate_c::control_handle::ControlHandle;
use crate::erased::percpu_gate_c::life::{
    percpu_gate_free_control, percpu_gate_free_pass, percpu_gate_new_numbered, percpu_gate_next_pass,
};
use crate::erased::percpu_gate_c::pass_calls::{percpu_gate_get, percpu_gate_put, percpu_gate_try_get};
use crate::erased::percpu_gate_c::pass_handle::PassHandle;

/// Makes a gate with this many slots, and a pass that holds a reference on the shared word, so that the slots count
/// nothing yet. Returns whether all calls succeed.
fn held_on_no_slot(control: &mut ControlHandle, pass: &mut PassHandle, slots: u32) -> bool {
    percpu_gate_new_numbered(control, &NUMBER, slots, 1, 1, &WORDS) == 0
        && percpu_gate_next_pass(control, pass) == 0
        && percpu_gate_try_get(pass, 0) == 0
        && percpu_gate_switch_to_slots(control) == 0
}

/// Takes an amount on the slots of one half, the odd ones or the even ones, and puts it on the slot beside each.
///
/// # Preconditions
///
/// - `pairs` is at most 256.
fn counts_on_pairs(pass: &mut PassHandle, pairs: u32, n: u32, is_odd: bool) -> bool {
    debug_assert!(pairs <= 256);
    for pair in 0..pairs {
        let (up, down) = if is_odd { (2 * pair + 1, 2 * pair) } else { (2 * pair, 2 * pair + 1) };
        if percpu_gate_get(pass, up, n) != 0 || percpu_gate_put(pass, down, n) != 0 {
            return false;
        }
    }
    true
}

/// Whether a kill finds this sum on the slots of one half, and its negative on the others, before a revival.
///
/// # Preconditions
///
/// - `pairs` is at most 256.
fn finds_on_pairs(control: &mut ControlHandle, pairs: u32, sum: i64, is_odd: bool) -> bool {
    debug_assert!(pairs <= 256);
    let Some(mut open) = control.take() else {
        return false;
    };
    let mut is_found = matches!(open.mark_dead(), Ok(Ok(slots)) if slots == 2 * pairs);
    for slot in 0..2 * pairs {
        let delta = if (slot % 2 == 1) == is_odd { sum } else { 0i64.saturating_sub(sum) };
        is_found = is_found && matches!(open.close_next(), Ok(found) if found == delta);
    }
    is_found = is_found && open.collect().is_ok() && open.confirm().is_ok();
    is_found = is_found && matches!(open.drop_base(), Ok(Put::NotLast));
    is_found = is_found && matches!(open.resurrect(), Ok(Ok(Revived::Held)));
    control.put_back(open);
    is_found
}

/// Amounts from 1 to 65,534 are taken on each of 512 slots, and put on each.
#[test]
fn amounts_on_every_slot() {
    for n in [1u32, 2, 777, 999, 1_000, 1_001, 1_999, 2_000, 65_534] {
        let mut control = ControlHandle::new();
        let mut pass = PassHandle::new();
        let made = held_on_no_slot(&mut control, &mut pass, 512);
        assert!(made);
        for is_odd in [false, true] {
            let counted = counts_on_pairs(&mut pass, 256, n, is_odd);
            assert!(counted, "{n}");
            let found = finds_on_pairs(&mut control, 256, i64::from(n), is_odd);
            assert!(found, "{n}");
        }
        percpu_gate_free_pass(&mut pass);
        percpu_gate_free_control(&mut control);
    }
}

/// Every amount from 1 to 65,534 is taken on each of four slots and put on each. A life has sixteen of them.
#[test]
fn every_amount_on_its_slot() {
    let mut control = ControlHandle::new();
    let mut pass = PassHandle::new();
    let made = held_on_no_slot(&mut control, &mut pass, 4);
    assert!(made);
    for sixteen in 0..4096u32 {
        for is_odd in [false, true] {
            let mut sum = 0i64;
            for place in 1..=16u32 {
                let n = 16 * sixteen + place;
                if n <= 65_534 {
                    let counted = counts_on_pairs(&mut pass, 2, n, is_odd);
                    assert!(counted, "{n}");
                    sum = sum.saturating_add(i64::from(n));
                }
            }
            let found = finds_on_pairs(&mut control, 2, sum, is_odd);
            assert!(found, "{sixteen}");
        }
    }
    percpu_gate_free_pass(&mut pass);
    percpu_gate_free_control(&mut control);
}
