//! A push that is held before its step, while threads fall asleep, and one that finds no room.

use crate::turns::{insist, until, wait_for};
use crate::{Hold, Line, When, ring};
use std::thread::scope;

/// A thread pushes, and is held before it looks for room. This many threads sleep before the push, and this many fall asleep while it is
/// held. It wakes one of them, since all sleep by then.
fn push_held(before: u32, meanwhile: u32) {
    let (line, mut source, mut consumers) = Line::new(1, before + meanwhile, 1);
    let late = consumers.split_off(before as usize);
    let (never, hold) = (Hold::new(When::Never), Hold::new(When::Look(1)));
    scope(|scope| {
        line.sleepers(scope, consumers, &never);
        let (line, held) = (&line, hold.clone());
        let pushes = scope.spawn(move || {
            ring::at_pushes(move |look| held.look(look), |_| {});
            (line.push(&mut source), source)
        });
        wait_for(&hold.held, 1);
        late.into_iter().for_each(|consumer| drop(line.draws(scope, consumer, &never)));
        wait_for(&line.asleep, u64::from(before + meanwhile));
        hold.release();
        until(|| pushes.is_finished());
        let (wakes, mut source) = pushes.join().expect("a push that ends");
        insist(wakes == 1, "a push wakes nobody, or two");
        for woken in 1..u64::from(before + meanwhile) {
            wait_for(&line.drawn, woken);
            insist(line.push(&mut source) == 0, "a push wakes one though not all sleep");
            insist(line.wake_one_more(&mut source) == 1, "nobody is woken for a request, or two");
        }
    });
}

/// A push wakes one if all sleep at its step, also if some fell asleep since it began.
#[test]
fn a_push_wakes_who_falls_asleep_meanwhile() {
    for meanwhile in [1, 2, 5] {
        (0..3).for_each(|before| push_held(before, meanwhile));
    }
}

/// A push that finds no room wakes a thread, which makes some.
#[test]
fn a_push_without_room_wakes_one() {
    for sleepers in [1, 2, 5] {
        let (line, mut source, mut consumers) = Line::new(1, sleepers + 1, 1);
        let mut own = consumers.pop().expect("a consumer");
        scope(|scope| {
            line.sleepers(scope, consumers, &Hold::new(When::Never));
            insist(line.push(&mut source) == 0, "a push wakes one though not all sleep");
            for woken in 1..=u64::from(sleepers) {
                insist(line.push(&mut source) == 1, "a push without room wakes nobody, or two");
                wait_for(&line.drawn, woken);
            }
            line.draw(&mut own);
        });
    }
}
