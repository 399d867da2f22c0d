//! The table of the libraries for C: rows, and the end of a process that steps past it.

use c_memory::erased::atomic_table::Table;
use std::env;
use std::process::{Command, Stdio};

#[test]
fn steps_by_hand() {
    let (table, mut seat) = Table::of_words(&[5, u64::MAX]).unwrap();
    let words = &table.shared;
    let mut other = words.split_seat(&mut seat);
    assert_eq!(words.load(&mut other, 0), 5);
    words.store(&mut seat, 0, 12);
    assert_eq!(words.fetch_add(&mut seat, 0, 3), 12);
    assert_eq!(words.fetch_sub(&mut seat, 0, 1), 15);
    assert_eq!(words.fetch_and(&mut seat, 0, 6), 14);
    assert_eq!(words.fetch_or(&mut seat, 0, 9), 6);
    assert_eq!(words.swap(&mut seat, 0, 1), 15);
    assert_eq!(words.compare_exchange(&mut seat, 0, 2, 7), 1);
    assert_eq!(words.compare_exchange(&mut seat, 0, 1, 7), 1);
    assert_eq!(words.load(&mut seat, 0), 7);
    assert_eq!(words.fetch_add(&mut seat, 1, 2), u64::MAX);
    assert_eq!(words.load(&mut seat, 1), 1);
    words.join_seat(&mut seat, other);
    table.close_with(seat).free();
}

#[test]
#[ignore = "it ends its process"]
fn steps_past_the_end() {
    let (table, mut seat) = Table::of_words(&[1, 2, 3]).unwrap();
    table.shared.load(&mut seat, 3);
}

#[test]
fn a_step_past_the_end_ends_the_process() {
    let child = ["--ignored", "--exact", "steps_past_the_end"];
    let itself = env::current_exe().unwrap();
    let ended = Command::new(itself).args(child).stdout(Stdio::null()).stderr(Stdio::null()).status().unwrap();
    assert_eq!(ended.code(), None, "a signal ends it");
}
