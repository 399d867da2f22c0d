//! A value that a queue guards: no request reads it while a freeze changes it, and no two freezes change it at once.
use super::race;
use crate::plain_value::Value;
use crate::queue::Queue;
use crate::{Limits, Tag};
use std::sync::Mutex;

struct Parts {
    queue: Queue<Value>,
    tags: Vec<Mutex<Tag<Value>>>,
}

fn parts() -> Parts {
    let queue = Queue::builder(Limits::of_hardware(64)).slots(1).tags(2).value(Value::default()).build().unwrap();
    let tags = (0..2).map(|_| Mutex::new(queue.tag().unwrap())).collect();
    Parts { queue, tags }
}

fn reads(parts: &Parts, tag: usize) {
    parts.queue.enter(&mut parts.tags[tag].lock().unwrap()).unwrap().is_read();
}

fn changes(parts: &Parts) {
    parts.queue.freeze().unwrap().lock().is_changed();
}

fn changed(parts: Parts, times: u32) {
    drop(parts.tags);
    assert_eq!(parts.queue.remove().unwrap().value.changes, times);
}

#[test]
fn two_read_and_one_changes() {
    let acts: [fn(&Parts); 3] = [|it| reads(it, 0), |it| reads(it, 1), changes];
    race("two that read a value and one that changes it", 3, parts, &acts, |it| changed(it, 1));
}

#[test]
fn one_reads_and_two_change() {
    let acts: [fn(&Parts); 3] = [|it| reads(it, 0), changes, changes];
    race("one that reads a value and two that change it", 3, parts, &acts, |it| changed(it, 2));
}

/// A look in at a frozen queue that isn't drained reads too.
#[test]
fn one_looks_in_and_one_changes() {
    fn looks(parts: &Parts) {
        if let Ok(request) = parts.queue.try_enter_frozen(&mut parts.tags[0].lock().unwrap()) {
            request.is_read();
        }
    }
    race("a look in at a value beside a change", 6, parts, &[looks, changes], |it| changed(it, 1));
}
