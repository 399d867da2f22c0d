//! A line for two tags, and one that a deadline ends.
use super::race;
use crate::{EnterError, Limits, Queue};
use orders::turns::block_on;
use std::time::Duration;

fn enters(queue: &Queue) {
    drop(queue.enter_any().unwrap());
}

fn enters_async(queue: &Queue) {
    drop(block_on(queue.enter_any_async()).unwrap());
}

/// Each tag is home, and no caller is in line.
fn is_whole(queue: Queue) {
    drop(queue.try_enter_any().expect("a tag is home"));
    queue.remove().unwrap();
}

#[test]
fn three_and_two_tags() {
    let two_tags = || Queue::builder(Limits::of_hardware(64)).slots(1).tags(2).build().unwrap();
    race("two threads and a task and two tags", 2, two_tags, &[enters, enters, enters_async], is_whole);
}

/// A deadline that has passed: the thread looks once more before it goes.
#[test]
fn a_deadline_passes_in_line() {
    fn enters_in_no_time(queue: &Queue) {
        let entered = queue.enter_any_timeout(Duration::ZERO).map(drop);
        assert!(matches!(entered, Ok(()) | Err(EnterError::TimedOut)));
    }
    let one_tag = || Queue::builder(Limits::of_hardware(64)).slots(1).tags(1).build().unwrap();
    race("a deadline that passes in line", 3, one_tag, &[enters, enters_async, enters_in_no_time], is_whole);
}
