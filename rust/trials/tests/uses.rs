//! Tests the functions that `uses` shows to drivers, on their usual paths. No clause says that there is memory for many commands, that a
//! request leaves on its own slot, or that a race is really a race.

use blkq::erased::freeze_queue::{BlockQueue, Limits};
use blkq::erased::percpu_gate::{Control, Gate, Pass, Put, Start, Tried};
use std::time::Instant;
use trials::erased::uses::{
    Command, Raced, Request, Served, change_limits, commands, enter_under, race, remove, serve, submit, submit_next,
};

#[path = "shared/patience.rs"]
mod patience;
use patience::PATIENCE;

/// A gate with a guarded word, its control and its passes.
fn gate(slots: u32, passes: u32, start: Start) -> (Gate<1>, Control<1>, Vec<Pass<1>>) {
    Gate::new(slots, passes, start, [7]).expect("memory")
}

#[test]
fn a_range_is_cut() {
    let made = commands(&Limits::new(16, 4, 8).unwrap(), 6, 6).unwrap();
    assert_eq!(made, [Command { first: 6, sectors: 2 }, Command { first: 8, sectors: 4 }]);
}

/// Each command moves one sector: there is memory for all of them.
#[test]
fn a_long_range_is_cut() {
    assert_eq!(commands(&Limits::new(8, 1, 0).unwrap(), 1, 200_000).unwrap().len(), 200_000);
}

/// There is memory for the commands of a request of each magnitude.
#[test]
fn a_request_of_each_magnitude_is_cut() {
    let limits = Limits::start(65_535).unwrap();
    let (queue, _freezer, mut tags) = BlockQueue::new(limits, 1, 2).unwrap();
    let mut biased = tags.pop().expect("a tag").into_biased(limits);
    for sectors in (0..32).flat_map(|bits| [1 << bits, u32::MAX >> bits]) {
        let plain = submit(&queue, &mut tags[0], 0, 7, sectors).unwrap().expect("entered");
        let next = submit_next(&queue, &mut biased, 0, Request { first: 7, sectors }).unwrap();
        queue.leave(&mut tags[0], 0);
        queue.leave_by_lane(&mut biased, 0, true);
        for made in [plain, next] {
            assert_eq!(made.iter().map(|command| u64::from(command.sectors)).sum::<u64>(), u64::from(sectors));
        }
    }
}

#[test]
fn a_request_after_the_removal_is_refused() {
    let (gate, mut control, mut passes) = gate(1, 1, Start::Atomic);
    assert_eq!(serve(&gate, &mut passes[0], 0), Served::Done(Put::NotLast));
    assert_eq!(remove(&gate, &mut control), Ok(Put::Last));
    assert_eq!(serve(&gate, &mut passes[0], 0), Served::Gone(Put::NotLast));
}

/// While the device is being removed and another request still uses it, the gate isn't at zero, and refuses all the same.
#[test]
fn a_request_beside_the_last_one_is_refused() {
    let (gate, mut control, mut passes) = gate(1, 2, Start::Atomic);
    assert_eq!(passes[1].try_get_live(&gate, 0), Tried::Given);
    assert_eq!(remove(&gate, &mut control), Ok(Put::NotLast));
    assert_eq!(serve(&gate, &mut passes[0], 0), Served::Gone(Put::NotLast));
}

/// A request leaves on its own slot: no slot has counted more in than out.
#[test]
fn a_request_leaves_on_its_own_slot() {
    let (gate, mut control, mut passes) = gate(2, 1, Start::Slots);
    assert_eq!(serve(&gate, &mut passes[0], 1), Served::Done(Put::NotLast));
    assert_eq!(control.mark_dead(&gate), Ok(2));
    assert_eq!([control.close_next(&gate), control.close_next(&gate)], [0, 0]);
}

/// A request races with the removal of a new device.
fn raced() -> Raced {
    let (gate, control, mut passes) = gate(1, 1, Start::Atomic);
    race(gate, passes.remove(0), control)
}

#[test]
fn one_of_the_two_frees_the_device() {
    for _ in 0..2_000 {
        let raced = raced();
        let is_last = matches!(raced.served, Served::Done(Put::Last) | Served::Gone(Put::Last));
        assert_ne!(is_last, raced.removed == Put::Last);
    }
}

/// The removal isn't always first: some race ends with a completed request, mostly the very first race.
#[test]
fn a_request_is_done_in_some_race() {
    let begun = Instant::now();
    while !matches!(raced().served, Served::Done(_)) {
        assert!(begun.elapsed() < PATIENCE, "each request came after the removal");
    }
}

#[test]
fn a_request_is_cut_by_the_limits_in_force() {
    let (queue, mut freezer, mut tags) = BlockQueue::new(Limits::start(8).unwrap(), 1, 1).unwrap();
    let tag = &mut tags[0];
    let wide = submit(&queue, tag, 0, 6, 6).unwrap().expect("entered");
    assert_eq!(wide.len(), 1);
    queue.leave(tag, 0);
    let narrow = Limits::new(8, 4, 8).unwrap();
    assert_eq!(change_limits(&queue, &mut freezer, narrow), Ok(()));
    enter_under(&queue, tag, 0, &narrow);
    queue.leave(tag, 0);
    let made = submit(&queue, tag, 0, 6, 6).unwrap().expect("entered");
    assert_eq!(made.len(), 2);
}

/// After a change of limits a tag that enters reads the new ones, and so does another thread, by the same tag.
#[test]
fn callers_by_hand() {
    let narrow = Limits::new(8, 3, 2).unwrap();
    let (queue, mut freezer, mut tags) = BlockQueue::new(Limits::start(8).unwrap(), 1, 1).expect("memory");
    let mut tag = tags.pop().expect("a tag");
    change_limits(&queue, &mut freezer, narrow).unwrap();
    queue.enter(&mut tag, 0);
    let there = std::thread::scope(|scope| scope.spawn(|| queue.limits(&mut tag)).join().expect("no panic"));
    assert_eq!((queue.limits(&mut tag), there), (narrow, narrow));
}
