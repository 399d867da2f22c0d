// Erased from crates/freeze_queue_c/src/tests/limits.rt by tools/erase: edit that file.
//! Limits that are set, read, refused, and used to cut.

use super::{LIMITS, NUMBER, close, opened};
use crate::erased::freeze_queue_c::first_piece::freeze_queue_first_piece;
use crate::erased::freeze_queue_c::freezer_calls::{
    freeze_queue_limits_in_force, freeze_queue_set, freeze_queue_start_freeze, freeze_queue_thaw,
};
use crate::erased::freeze_queue_c::freezer_handle::FreezerHandle;
use crate::erased::freeze_queue_c::life::{freeze_queue_free_freezer, freeze_queue_new_numbered};
use crate::erased::freeze_queue_c::plain_limits::PlainLimits;
use crate::erased::freeze_queue_c::tag_calls::{freeze_queue_leave, freeze_queue_limits_of, freeze_queue_try_enter};

/// A value that no test sets or reads.
const NOT_YET: PlainLimits = PlainLimits { hardware: 1, max: 2, chunk: 3, physical: 4 };

/// Makes limits from four numbers.
fn limits(hardware: u32, max: u32, chunk: u32, physical: u32) -> PlainLimits {
    PlainLimits { hardware, max, chunk, physical }
}

/// Limits set on a drained queue are read from then on. 0 asks for the hardware's maximum, for no chunk, and for a physical
/// block of one sector.
#[test]
fn set_and_told() {
    let (mut freezer, mut tag) = opened();
    let mut told = NOT_YET;
    let mut depth = 0;
    assert!(freeze_queue_try_enter(&mut tag, 0) == 0);
    assert!(freeze_queue_limits_of(&mut tag, &mut told) == 0);
    assert!(told == LIMITS);
    assert!(freeze_queue_set(&mut freezer, &LIMITS) == 18);
    assert!(freeze_queue_start_freeze(&mut freezer, &mut depth) == 0);
    assert!(freeze_queue_set(&mut freezer, &LIMITS) == 19);
    assert!(freeze_queue_leave(&mut tag, 0) == 1);
    assert!(freeze_queue_set(&mut freezer, &limits(16, 0, 7, 8)) == 0);
    assert!(freeze_queue_limits_in_force(&mut freezer, &mut told) == 0);
    assert!(told == limits(16, 16, 7, 8));
    assert!(freeze_queue_thaw(&mut freezer, &mut depth) == 5);
    told = NOT_YET;
    assert!(freeze_queue_try_enter(&mut tag, 1) == 0);
    assert!(freeze_queue_limits_of(&mut tag, &mut told) == 0);
    assert!(told == limits(16, 16, 7, 8));
    assert!(freeze_queue_leave(&mut tag, 1) == 0);
    assert!(freeze_queue_start_freeze(&mut freezer, &mut depth) == 4);
    assert!(freeze_queue_set(&mut freezer, &limits(16, 0, 0, 0)) == 0);
    assert!(freeze_queue_limits_in_force(&mut freezer, &mut told) == 0);
    assert!(told == limits(16, 16, 0, 1));
    close(&mut freezer, &mut tag);
    assert!(freeze_queue_limits_in_force(&mut freezer, &mut told) == 32);
}

/// Faults of limits come before refusals of the queue, in their order, and nothing is set.
#[test]
fn refused_limits() {
    let (mut freezer, mut tag) = opened();
    let mut told = NOT_YET;
    assert!(freeze_queue_set(&mut freezer, &limits(0, 9, 65_536, 3)) == 27);
    assert!(freeze_queue_set(&mut freezer, &limits(65_536, 9, 65_536, 3)) == 27);
    assert!(freeze_queue_set(&mut freezer, &limits(8, 9, 65_536, 3)) == 25);
    assert!(freeze_queue_set(&mut freezer, &limits(8, 8, 65_536, 3)) == 26);
    assert!(freeze_queue_set(&mut freezer, &limits(8, 8, 65_535, 3)) == 28);
    assert!(freeze_queue_set(&mut freezer, &limits(8, 8, 65_535, 65_536)) == 28);
    assert!(freeze_queue_set(&mut freezer, &limits(8, 8, 65_535, 32_768)) == 29);
    assert!(freeze_queue_set(&mut freezer, &limits(16, 8, 65_535, 32_768)) == 18);
    assert!(freeze_queue_limits_in_force(&mut freezer, &mut told) == 0);
    assert!(told == LIMITS);
    close(&mut freezer, &mut tag);
}

/// A queue is made if its limits are valid. Otherwise it is refused with the same numbers.
#[test]
fn limits_of_a_new_queue() {
    let mut freezer = FreezerHandle::new();
    let mut told = NOT_YET;
    assert!(freeze_queue_new_numbered(&mut freezer, &NUMBER, &limits(0, 0, 0, 1), 513, 2) == 27);
    assert!(freeze_queue_new_numbered(&mut freezer, &NUMBER, &limits(8, 9, 0, 1), 513, 2) == 25);
    assert!(freeze_queue_new_numbered(&mut freezer, &NUMBER, &limits(8, 0, 65_536, 1), 513, 2) == 26);
    assert!(freeze_queue_new_numbered(&mut freezer, &NUMBER, &limits(8, 0, 0, 6), 513, 2) == 28);
    assert!(freeze_queue_new_numbered(&mut freezer, &NUMBER, &limits(65_535, 0, 0, 1), 1, 1) == 0);
    assert!(freeze_queue_limits_in_force(&mut freezer, &mut told) == 0);
    assert!(told == limits(65_535, 65_535, 0, 1));
    freeze_queue_free_freezer(&mut freezer);
}

/// By hand: with chunks of ten, ten sectors from sector 3 reach to sector 10, and the last block of four before it ends at 8. A
/// request that fits stays whole. The last valid start is sector 2^33 - 1.
#[test]
fn first_pieces() {
    let mut piece = 9;
    assert!(freeze_queue_first_piece(&LIMITS, 3, 10, &mut piece) == 0);
    assert!(piece == 5);
    assert!(freeze_queue_first_piece(&LIMITS, 3, 7, &mut piece) == 0);
    assert!(piece == 7);
    assert!(freeze_queue_first_piece(&limits(16, 0, 0, 1), 8_589_934_591, 40, &mut piece) == 0);
    assert!(piece == 16);
    assert!(freeze_queue_first_piece(&LIMITS, 8_589_934_592, 1, &mut piece) == 51);
    assert!(freeze_queue_first_piece(&LIMITS, 3, 0, &mut piece) == 51);
    assert!(freeze_queue_first_piece(&limits(16, 17, 0, 1), 3, 0, &mut piece) == 25);
    assert!(piece == 16);
}
