//! Tests on which slot a tag of the waiting queue counts. No clause names the slot, and no caller can see it. A kill by hand shows it: it
//! closes one slot after the other and returns the count of each.
//!
//! The erased files of the queue are compiled again here, for the fields that only they see.

extern crate alloc;

#[allow(dead_code, unused_imports, clippy::all, clippy::pedantic)]
mod erased;

use crate::erased::freeze_queue::{
    BlockQueue, Enter, FreezeFault, Freezer, Limits, MOST_DEPTH, Mode, Put, SharedFreezer, Tag,
};
use crate::erased::uses::{Request, submit_next};

/// Returns the counts of the slots of a live queue, after a kill has begun and this closure was called.
fn counted_after(queue: &BlockQueue, freezer: Freezer, done: impl FnOnce()) -> Vec<i64> {
    let (gate, mut control) = (&queue.core.gate, freezer.core.into_control());
    let slots = control.mark_dead(gate).expect("a live gate");
    done();
    (0..slots).map(|_| control.close_next(gate)).collect()
}

/// Returns the counts of the slots of a live queue.
fn counted(queue: BlockQueue, freezer: Freezer) -> Vec<i64> {
    counted_after(&queue, freezer, || ())
}

/// A queue with this many slots, and its tag.
fn with_one_tag(slots: u32) -> (BlockQueue, Freezer, Tag) {
    let limits = Limits::start(8).expect("limits");
    let (queue, freezer, mut tags) = BlockQueue::new(limits, slots, 1).expect("memory");
    (queue, freezer, tags.swap_remove(0))
}

/// A tag that enters, waits to enter or looks in counts up on its slot, and a leave counts down on its own.
#[test]
fn each_count_is_on_its_slot() {
    let limits = Limits::start(8).expect("limits");
    let (queue, freezer, mut tags) = BlockQueue::new(limits, 5, 1).expect("memory");
    let tag = &mut tags[0];
    assert_eq!(queue.try_enter(tag, 1), Enter::Entered);
    let _put = queue.leave(tag, 2);
    assert_eq!(queue.try_enter_frozen(tag, 3), Enter::Entered);
    let _put = queue.leave(tag, 2);
    queue.enter(tag, 4);
    let _put = queue.leave(tag, 2);
    assert_eq!(counted(queue, freezer), [0, 1, -3, 1, 1]);
}

/// A switch to the mode that the queue has moves no count, since it closes no slot.
#[test]
fn the_same_mode_again_moves_no_count() {
    let limits = Limits::start(8).expect("limits");
    let (queue, mut freezer, mut tags) = BlockQueue::new(limits, 2, 1).expect("memory");
    assert_eq!(queue.try_enter(&mut tags[0], 1), Enter::Entered);
    freezer.mode(&queue, Mode::Slots);
    assert_eq!(counted(queue, freezer), [0, 1]);
}

/// A way of entering: the call and its name.
type Way = (&'static str, fn(&BlockQueue, &mut Tag, u32));

/// The three calls that enter a live queue.
const WAYS: [Way; 3] = [
    ("try_enter", |queue, tag, slot| assert_eq!(queue.try_enter(tag, slot), Enter::Entered)),
    ("try_enter_frozen", |queue, tag, slot| assert_eq!(queue.try_enter_frozen(tag, slot), Enter::Entered)),
    ("enter", |queue, tag, slot| queue.enter(tag, slot)),
];

/// The same on each slot, with 1 to 64 slots and with the maximum.
#[test]
fn each_call_counts_on_each_slot() {
    for slots in (1..=64).chain([512]) {
        for slot in 0..slots {
            let (up, down) = (slot as usize, (slot + 1) % slots);
            for (name, enters) in WAYS {
                let (queue, freezer, mut tag) = with_one_tag(slots);
                enters(&queue, &mut tag, slot);
                let _put = queue.leave(&mut tag, down);
                let mut wanted = vec![0; slots as usize];
                wanted[up] += 1;
                wanted[down as usize] -= 1;
                assert_eq!(counted(queue, freezer), wanted, "{name} on slot {slot} of {slots}");
            }
        }
    }
}

/// Queues of three slots, for devices of several sizes with and without chunks, which were frozen up to four times; and their tags.
fn queues() -> impl Iterator<Item = (BlockQueue, Freezer, Tag)> {
    let devices =
        [1, 8, 255, 4_000, 4_001, 32_768, 65_535].into_iter().flat_map(|size| [(size, 0), (size, 1), (size, 65_535)]);
    devices.flat_map(|device| (0..5).map(move |freezes| (device, freezes))).map(|((size, chunk), freezes)| {
        let limits = Limits::new(size, 0, chunk).expect("limits");
        let (queue, mut freezer, mut tags) = BlockQueue::new(limits, 3, 1).expect("memory");
        for _ in 0..freezes {
            assert_eq!((freezer.freeze(&queue), freezer.thaw(&queue)), (Ok(1), Ok(0)));
        }
        (queue, freezer, tags.swap_remove(0))
    })
}

/// Each call counts on its slot, whatever the device and however often the queue was frozen; a switch to the same mode moves no count,
/// nor does a freezer that is shared, locked and taken back.
#[test]
fn each_queue_counts_on_its_slots() {
    for (name, enters) in WAYS {
        for (queue, mut freezer, mut tag) in queues() {
            enters(&queue, &mut tag, 1);
            let _put = queue.leave(&mut tag, 2);
            freezer.mode(&queue, Mode::Slots);
            let shared = SharedFreezer::new(freezer, &queue);
            assert_eq!(shared.lock().freezer.depth(), 0);
            let freezer = shared.into_inner().freezer;
            assert_eq!(counted(queue, freezer), [0, 1, -1], "{name}");
        }
    }
}

/// A tag with no bias counts on its slots, as it enters and as it leaves.
#[test]
fn a_tag_without_a_bias_counts_on_its_slots() {
    for (queue, freezer, tag) in queues() {
        let mut tag = tag.into_biased(freezer.limits());
        queue.enter_by_lane(&mut tag, 1);
        let left = || assert_eq!(queue.leave_by_lane(&mut tag, 2, false), Put::NotLast);
        assert_eq!(counted_after(&queue, freezer, left), [0, 1, -1]);
    }
}

/// Once its tag is biased, a thread's requests count nothing. On a slot that can't count further down, a leave and an enter would show as one
/// more.
#[test]
fn the_next_request_counts_nothing() {
    let floor = 1 << 20;
    let (queue, freezer, mut tag) = with_one_tag(3);
    for _ in 0..floor {
        queue.enter(&mut tag, 1);
        let _put = queue.leave(&mut tag, 2);
    }
    let mut tag = tag.into_biased(freezer.limits());
    queue.enter_by_lane(&mut tag, 0);
    for first in 0..5 {
        assert_eq!(queue.leave_by_lane(&mut tag, 2, true), Put::NotLast);
        let made = submit_next(&queue, &mut tag, 2, Request { first, sectors: 8 });
        assert_eq!(made.map(|commands| commands.len()), Ok(1));
    }
    assert_eq!(counted(queue, freezer), [1, floor, -floor]);
}

/// A shared freezer freezes up to the maximum depth, one more each time. After the thaws it is as before: its queue counts on slots.
/// Sharing it and taking it back changes nothing at any depth.
#[test]
fn shared_freezes_nest_to_the_most_depth() {
    let (queue, freezer, mut tag) = with_one_tag(2);
    let shared = SharedFreezer::new(freezer, &queue);
    for depth in 1..=MOST_DEPTH {
        assert_eq!(shared.freeze().map(|guard| guard.freezer.depth()), Ok(depth));
        assert_eq!(shared.wait_drained().map(|guard| guard.freezer.depth()), Ok(depth));
        assert_eq!(shared.lock().freezer.depth(), depth);
    }
    assert_eq!(shared.freeze().map(|guard| guard.freezer.depth()), Err(FreezeFault::DepthFull));
    let mut freezer = shared.into_inner().freezer;
    for depth in (0..MOST_DEPTH).rev() {
        assert_eq!(freezer.thaw(&queue), Ok(depth));
        freezer = SharedFreezer::new(freezer, &queue).into_inner().freezer;
        assert_eq!(freezer.depth(), depth);
    }
    assert_eq!(freezer.limits(), Limits::start(8).expect("limits"));
    assert_eq!(queue.try_enter(&mut tag, 1), Enter::Entered);
    assert_eq!(counted(queue, freezer), [0, 1]);
}
