//! Tests the functions that `uses` shows to drivers, while other threads act: limits that another thread sets, nested freezes, requests
//! of biased tags.

use blkq::erased::freeze_queue::{BlockQueue, Freezer, Limits, Put, Tag};
use std::thread;
use std::time::Duration;
use trials::erased::uses::{Command, Request, change_limits, drive, enter_under, submit, submit_next};

#[allow(dead_code)]
#[path = "shared/turns.rs"]
mod turns;
use turns::{insist, until};

/// The time for a thread to enter and leave again.
const PAUSE: Duration = Duration::from_millis(20);
const WIDE: [u32; 2] = [8, 0];
const NARROW: [u32; 2] = [4, 8];

fn limits([max, chunk]: [u32; 2]) -> Limits {
    Limits::new(8, max, chunk).expect("limits")
}

fn with_one_tag() -> (BlockQueue, Freezer, Tag) {
    let (queue, freezer, mut tags) = BlockQueue::new(Limits::start(8).expect("limits"), 1, 1).expect("memory");
    (queue, freezer, tags.swap_remove(0))
}

fn lengths(commands: &[Command]) -> Vec<u32> {
    commands.iter().map(|command| command.sectors).collect()
}

/// A request that finds other limits leaves and enters again, until another thread has set the limits that it wants. It has time to find
/// others first.
#[test]
fn limits_that_are_set_later() {
    let (queue, mut freezer, mut tag) = with_one_tag();
    thread::scope(|scope| {
        let enters = scope.spawn(|| {
            enter_under(&queue, &mut tag, 0, &limits(NARROW));
            queue.limits(&mut tag)
        });
        thread::sleep(PAUSE);
        for other in [[2, 0], [3, 0], NARROW] {
            insist(change_limits(&queue, &mut freezer, limits(other)).is_ok(), "a freeze is refused");
        }
        until(|| enters.is_finished());
        insist(enters.join().is_ok_and(|seen| seen == limits(NARROW)), "it enters under other limits");
    });
    assert_eq!(freezer.start_freeze(&queue), Ok(1));
    assert_eq!((freezer.poll_drained(&queue), queue.leave(&mut tag, 0)), (false, Put::Last));
}

/// The next request has the limits of the one before; after a freeze it has the new limits.
#[test]
fn requests_of_a_biased_tag() {
    let (queue, mut freezer, mut tag) = with_one_tag();
    assert_eq!(lengths(&submit(&queue, &mut tag, 0, 6, 6).unwrap().expect("a live queue")), [6]);
    assert_eq!(queue.leave(&mut tag, 0), Put::NotLast);
    let (mut tag, request) = (tag.into_biased(limits(NARROW)), Request { first: 6, sectors: 6 });
    for _ in 0..3 {
        assert_eq!(lengths(&submit_next(&queue, &mut tag, 0, request).unwrap()), [6]);
        assert_eq!((queue.leave_by_lane(&mut tag, 0, true), tag.is_biased()), (Put::NotLast, true));
    }
    thread::scope(|scope| {
        let (frozen, next) = (freezer.start_freeze(&queue), scope.spawn(|| submit_next(&queue, &mut tag, 0, request)));
        insist(frozen == Ok(1), "a freeze is refused");
        insist(change_limits(&queue, &mut freezer, limits(NARROW)).is_ok(), "a nested freeze is refused");
        insist(freezer.depth() == 1 && freezer.limits() == limits(NARROW), "the nested freeze changes another depth");
        insist(freezer.thaw(&queue) == Ok(0), "a thaw is refused");
        let cut = next.join().expect("no panic").expect("memory");
        insist(lengths(&cut) == [2, 4], "it is cut by other limits");
    });
    assert_eq!(queue.leave_by_lane(&mut tag, 0, false), Put::NotLast);
    let Ok(mut tag) = tag.into_tag() else { panic!("it isn't biased") };
    assert_eq!(change_limits(&queue, &mut freezer, limits(WIDE)), Ok(()));
    assert!(submit(&queue, &mut tag, 0, 0, 8).unwrap().is_some());
}

/// Requests that run beside changes are each cut by the limits of one of these, and the changes are made. Limits for other hardware are left out.
#[test]
fn requests_beside_changes() {
    let (queue, freezer, tag) = with_one_tag();
    let requests = [Request { first: 6, sectors: 6 }; 10_000];
    let changes = [limits(NARROW), Limits::new(16, 1, 0).unwrap(), limits(WIDE)].repeat(50);
    let driven = drive(&queue, tag.into_biased(limits(WIDE)), freezer, &requests, &changes);
    assert_eq!(driven.changed, Ok(()));
    let commands = driven.commands.expect("memory");
    assert_eq!(commands.len(), requests.len());
    assert!(commands.iter().all(|it| [vec![6], vec![2, 4]].contains(&lengths(it))), "other limits cut a request");
}

/// Limits can be changed at each depth, and the depth stays.
#[test]
fn limits_change_at_each_depth() {
    let (queue, mut freezer, mut tag) = with_one_tag();
    for depth in 1..=999 {
        assert_eq!(freezer.freeze(&queue), Ok(depth));
        assert_eq!(change_limits(&queue, &mut freezer, limits([1 + depth % 8, 0])), Ok(()));
        assert_eq!((freezer.depth(), freezer.limits()), (depth, limits([1 + depth % 8, 0])));
    }
    assert_eq!(freezer.freeze(&queue), Ok(1_000));
    assert!(change_limits(&queue, &mut freezer, limits(WIDE)).is_err());
    (0..1_000).rev().for_each(|depth| assert_eq!(freezer.thaw(&queue), Ok(depth)));
    assert_eq!(lengths(&submit(&queue, &mut tag, 0, 0, 8).unwrap().expect("a live queue")), [8]);
}

/// The lower bound of the iterator's `size_hint` is the number of pieces under `max` alone.
#[test]
fn pieces_that_are_promised() {
    for max in 1..=70 {
        let limits = Limits::new(70, max, 0).expect("limits");
        for count in [0, 1, 2, 69, 70, 71, 1_000] {
            let pieces = limits.pieces(5, count);
            assert_eq!(pieces.size_hint(), (count.div_ceil(max) as usize, Some(count as usize)));
            assert_eq!(pieces.count(), count.div_ceil(max) as usize);
        }
    }
}
