//! Biased tags beside changes: limits hold still under each request, each change is made, and each wait ends.
use super::race;
use crate::{Limits, OwnedRequest, Queue};
use orders::turns::pause;

const LIMITS: Limits = Limits::of_hardware(64).with_max(1);

/// A queue of so many tags, each of which is biased.
fn biased(tags: u32) -> Queue {
    let queue = Queue::builder(LIMITS).slots(1).tags(tags).build().unwrap();
    let all: Vec<OwnedRequest> = (0..tags).map(|_| queue.try_enter_any().expect("a tag is home")).collect();
    drop(all);
    queue
}

fn enters(queue: &Queue) {
    let request = queue.enter_any().unwrap();
    let limits = request.limits();
    pause();
    assert_eq!(request.limits(), limits, "limits changed under a request");
}

fn enters_twice(queue: &Queue) {
    enters(queue);
    enters(queue);
}

fn changes(queue: &Queue) {
    queue.update(|limits| limits.with_max(limits.max + 1)).unwrap();
}

fn changes_twice(queue: &Queue) {
    changes(queue);
    changes(queue);
}

/// Freezes, and gives up if a request is in.
fn gives_up(queue: &Queue) {
    drop(queue.try_freeze());
}

/// The queue is live, nobody is in, and so many changes were made.
fn is_changed(queue: &Queue, times: u32) {
    assert_eq!((queue.depth(), queue.limits()), (0, LIMITS.with_max(1 + times)));
    drop(queue.try_freeze().expect("no request is in flight"));
    drop(queue.try_enter_any().expect("a tag is home"));
}

#[test]
fn a_biased_tag_twice_beside_two_changes() {
    race(
        "a biased tag, twice, beside two changes",
        3,
        || biased(1),
        &[enters_twice, changes_twice],
        |it| is_changed(&it, 2),
    );
}

#[test]
fn two_biased_tags_beside_a_change() {
    let acts: [fn(&Queue); 3] = [enters, enters, changes];
    race("two biased tags beside a change", 2, || biased(2), &acts, |it| is_changed(&it, 1));
}

#[test]
fn a_biased_tag_beside_a_freeze_that_is_given_up_and_a_change() {
    let acts: [fn(&Queue); 3] = [enters, gives_up, changes];
    race("a biased tag beside a freeze that is given up and a change", 2, || biased(1), &acts, |it| is_changed(&it, 1));
}

fn tries(queue: &Queue) {
    drop(queue.try_enter_any());
}

/// An earlier change took the bias, and its owner hasn't seen that yet: it says busy for a moment, beside a freeze that looks at no lane first.
#[test]
fn a_bias_of_an_earlier_life_beside_a_change() {
    let changed = || {
        let queue = biased(1);
        changes(&queue);
        queue
    };
    race("a bias of an earlier life beside a change", 3, changed, &[tries, changes], |it| is_changed(&it, 2));
}
