//! Tests limits whose max only rises, while threads enter, read them and leave.

use blkq::erased::freeze_queue::{BlockQueue, Final, Freezer, Limits, Mode, Tag};
use std::thread;
use trials::erased::uses::change_limits;

/// The hardware's maximum, and the greatest max that is set.
const HARDWARE: u32 = 1_024;
const GREATEST: u32 = 1_000;

/// The limits with this max. The chunk is equal to it, and a physical block has 2 sectors if max is even, otherwise 1.
fn limits_of(max: u32) -> Limits {
    let mut limits = Limits::new(HARDWARE, max, max).expect("limits");
    limits.set_physical(2 - max % 2).expect("a power of two");
    limits
}

/// Enters, reads the limits twice and leaves, this many times. Both reads are equal and of one setting, and max never decreases.
fn read_rounds(queue: &BlockQueue, tag: &mut Tag, slot: u32) {
    let mut last = 0;
    for _ in 0..1_000 {
        queue.enter(tag, slot);
        let (first, second) = (queue.limits(tag), queue.limits(tag));
        queue.leave(tag, slot);
        assert_eq!(first, second);
        assert_eq!(first, limits_of(first.max()));
        assert!(last <= first.max(), "{last} and then {}", first.max());
        last = first.max();
    }
}

/// Sets max to 2, 3 and so on, and switches the mode before each if asked. Returns the number of settings.
fn raise(queue: &BlockQueue, freezer: &mut Freezer, switches: bool) -> u32 {
    let mut done = 0;
    for max in 2..=GREATEST {
        if switches {
            freezer.mode(queue, if max % 2 == 1 { Mode::Slots } else { Mode::Atomic });
        }
        done += u32::from(change_limits(queue, freezer, limits_of(max)).is_ok());
    }
    done
}

/// Three threads read while a fourth raises max. Each change is done, each freeze has one release, and the last limits are left.
fn max_only_rises(slots: u32, switches: bool) {
    let (queue, mut freezer, mut tags) = BlockQueue::new(limits_of(1), slots, 3).expect("memory");
    let done = thread::scope(|scope| {
        for (number, tag) in tags.iter_mut().enumerate() {
            let slot = if number == 1 { slots - 1 } else { 0 };
            scope.spawn({
                let queue = &queue;
                move || read_rounds(queue, tag, slot)
            });
        }
        raise(&queue, &mut freezer, switches)
    });
    assert_eq!(done, GREATEST - 1);
    let left = freezer.remove(queue, tags).map_err(|refused| refused.why);
    assert_eq!(left, Ok(Final { dead: true, kills: 1_000, releases: 1_000, words: [1_000, 1_000, 2] }));
}

/// Three threads enter, read the limits twice and leave, each on its own tag, while max is set to 2, 3 and so on to 50.
#[test]
fn max_only_rises_to_fifty() {
    let limits = |max| Limits::new(64, max, 0).expect("limits");
    let (queue, mut freezer, mut tags) = BlockQueue::new(limits(1), 2, 3).expect("memory");
    let rounds = |tag: &mut Tag, slot| {
        let mut last = 0;
        for _ in 0..1_000 {
            queue.enter(tag, slot);
            let (first, second) = (queue.limits(tag), queue.limits(tag));
            queue.leave(tag, slot);
            assert_eq!(first, second);
            assert!(last <= first.max(), "{last} and then {}", first.max());
            last = first.max();
        }
    };
    thread::scope(|scope| {
        for (number, tag) in tags.iter_mut().enumerate() {
            let slot = number as u32 % 2;
            scope.spawn(move || rounds(tag, slot));
        }
        for max in 2..=50 {
            assert_eq!(freezer.freeze(&queue), Ok(1));
            assert_eq!(freezer.set(&queue, limits(max)), Ok(()));
            assert_eq!(freezer.thaw(&queue), Ok(0));
        }
    });
    assert_eq!(freezer.limits(), limits(50));
}

#[test]
fn max_only_rises_on_one_slot() {
    max_only_rises(1, false);
}

#[test]
fn max_only_rises_on_two_slots() {
    max_only_rises(2, false);
}

#[test]
fn max_only_rises_through_switches() {
    max_only_rises(2, true);
}
