//! The atomic steps of each call, one after another, in each life of a gate and of a queue. No contract says which steps the calls of a control
//! or of a freezer take, or that a lane is looked at once.
#![allow(
    dead_code,
    unused_imports,
    unfulfilled_lint_expectations,
    unsafe_code,
    missing_docs,
    missing_debug_implementations,
    clippy::all,
    clippy::pedantic
)]

extern crate alloc;

#[path = "../shared/erased.rs"]
mod erased;
mod words;

use crate::erased::bias_lanes::{Freezer, Lane, Lanes};
use crate::erased::percpu_gate::{Control, Gate, Pass, Put, Revived, Start, Tried};
use crate::erased::queue_core::{self, BiasedEntry, BiasedTag, BlockQueue, FreezeFault, Frozen, Limits, Mode};
use crate::words::{behind_the_next_store, steps};
use std::sync::mpsc;

/// Whether a call returns this and takes these steps.
#[track_caller]
fn takes<T: PartialEq + std::fmt::Debug>(returned: T, wanted: T, its_steps: &str) {
    assert_eq!((returned, steps().as_str()), (wanted, its_steps));
}

const LIVES: u64 = 9;

/// A gate of two slots, its control and its passes.
fn gate(passes: u32) -> (Gate<1>, Control<1>, Vec<Pass<1>>) {
    let made = Gate::new(2, passes, Start::Slots, [7]).expect("memory");
    steps();
    made
}

#[test]
fn a_pass_takes_few_steps() {
    let (gate, mut control, mut passes) = gate(2);
    let pass = &mut passes[1];
    for life in 0..LIVES {
        takes(pass.try_get_live(&gate, 1), Tried::Given, "lx");
        takes(pass.try_get(&gate, 1), Tried::Given, "lx");
        takes(pass.get(&gate, 0, 5), (), "lx");
        takes((pass.word(&gate, 0), pass.front(&gate)), (7, 2 * life), "ll");
        takes((pass.is_dying(&gate), pass.is_zero(&gate)), (false, false), "ll");
        takes(pass.put(&gate, 0, 6), Put::NotLast, "lx");
        assert_eq!(control.kill(&gate), Ok(Put::NotLast));
        steps();
        takes(pass.get(&gate, 1, 1), (), "l+");
        takes(pass.try_get_live(&gate, 1), Tried::Refused(Put::NotLast), "l+-");
        takes(pass.put(&gate, 1, 1), Put::NotLast, "l-");
        takes(pass.put(&gate, 1, 1), Put::Last, "l-x");
        takes(pass.try_get(&gate, 1), Tried::Refused(Put::NotLast), "l+-");
        assert_eq!(control.reinit(&gate), Ok(()));
        steps();
    }
}

/// A look of the control is one load, also if its call is refused after it. A kill and a revival take the steps of docs/GATE.md.
#[test]
fn a_control_takes_the_steps_of_its_call() {
    use crate::erased::percpu_gate::ControlFault::{AlreadyDead, NotDead, NotZero};
    let (gate, mut control, mut passes) = gate(2);
    for _ in 0..LIVES {
        takes(control.kill_and_confirm(&gate, |_| steps()), Ok((Put::Last, "|ww-s".into())), "-x");
        takes((control.kill(&gate), control.is_zero(&gate)), (Err(AlreadyDead), true), "l");
        takes(control.store_word(&gate, 0, 7), Ok(()), "ls");
        takes(control.reinit(&gate), Ok(()), "l+s&+ss");
        takes((control.is_zero(&gate), control.reinit(&gate)), (false, Err(NotDead)), "l");
        takes(control.switch_to_slots(&gate), Ok(()), "");
        takes(control.switch_to_atomic(&gate), Ok(()), "ww-");
        assert_eq!(passes[0].try_get_live(&gate, 0), Tried::Given);
        steps();
        takes(control.kill(&gate), Ok(Put::NotLast), "|s-");
        takes(control.is_zero(&gate), false, "l");
        takes(control.reinit(&gate), Err(NotZero), "l");
        takes(control.store_word(&gate, 0, 9), Err(NotZero), "l");
        takes(control.resurrect(&gate), Ok(Revived::Held), "+s&");
        takes(control.switch_to_slots(&gate), Ok(()), "+ss");
        assert_eq!(passes[0].put(&gate, 0, 1), Put::NotLast);
        steps();
    }
}

/// Lanes in each of which an owner has parked its number.
fn parked(count: usize) -> (Lanes<usize>, Freezer<usize>, Vec<Lane<usize>>) {
    let (lanes, freezer) = Lanes::new(count).expect("memory");
    let mut owners: Vec<_> = (0..count).map(|lane| lanes.owner(lane).expect("an owner")).collect();
    steps();
    for owner in &mut owners {
        takes(owner.park(&lanes, owner.number()), Ok(true), "lssl");
    }
    (lanes, freezer, owners)
}

/// A request is a store and a load on each side, and each look of the freezer is a load.
#[test]
fn a_lane_takes_few_steps() {
    let (lanes, mut freezer, mut owners) = parked(1_023);
    for life in 0..LIVES {
        for owner in &mut owners {
            takes(owner.enter(&lanes), true, "sl");
        }
        for owner in &mut owners[1..] {
            takes(owner.leave(&lanes), true, "sl");
        }
        takes(freezer.freeze(&lanes), (), "s");
        let fenced = freezer.fence();
        takes((), (), "f");
        takes(freezer.look(&lanes, 0, &fenced), true, "l");
        takes((1..1_023).any(|lane| freezer.look(&lanes, lane, &fenced)), false, &"l".repeat(1_022));
        takes(owners[0].leave(&lanes), false, "sl");
        takes(freezer.reclaim(&lanes, 1_022), Some(1_022), "x");
        takes(owners[1_022].take_back(&lanes), None, "sx");
        takes(owners[1_022].take_back(&lanes), None, "sx");
        takes(freezer.restore(&lanes, 1_022, 1_022), (), "s");
        for (number, owner) in owners.iter_mut().enumerate() {
            takes(owner.take_back(&lanes), Some(number), "sx");
            takes(owner.park(&lanes, number), Err(number), "l");
        }
        takes(freezer.thaw(&lanes), (), "s");
        for (number, owner) in owners.iter_mut().enumerate() {
            takes(owner.park(&lanes, number), Ok(true), "lssl");
        }
        assert_eq!(freezer.epoch(), 2 * life + 4);
    }
}

/// A cell is filled before its word says so: whoever finds the word finds the reference, the freezer as an owner parks, and an owner as the
/// freezer puts it back.
#[test]
fn a_reference_is_in_its_cell_before_its_word_says_so() {
    let (sender, found) = mpsc::channel();
    let (lanes, mut freezer) = Lanes::new(1).expect("memory");
    let lanes: &'static Lanes<u32> = Box::leak(Box::new(lanes));
    let mut owner = lanes.owner(0).expect("an owner");
    behind_the_next_store(move || {
        freezer.freeze(lanes);
        assert!(!freezer.look(lanes, 0, &freezer.fence()));
        sender.send((freezer.reclaim(lanes, 0), freezer)).unwrap();
    });
    assert_eq!(owner.park(lanes, 7), Ok(false), "a freeze came between");
    let (reclaimed, mut freezer) = found.recv().unwrap();
    assert_eq!(reclaimed, Some(7));
    let (sender, found) = mpsc::channel();
    behind_the_next_store(move || sender.send(owner.take_back(lanes)).unwrap());
    freezer.restore(lanes, 0, 9);
    assert_eq!(found.recv().unwrap(), Some(9));
}

/// The fewest slots, the most, and some between.
const SLOTS: [u32; 6] = [1, 2, 3, 64, 65, 512];

/// The last put of a freeze: its own, or that of a tag that it found biased and idle.
fn last(frozen: Frozen) -> Put {
    if frozen.reclaimed == Put::Last { Put::Last } else { frozen.put }
}

fn queue(slots: u32, tags: u32) -> (BlockQueue, queue_core::Freezer, Vec<BiasedTag>) {
    let limits = Limits::start(8).expect("limits");
    let (queue, freezer, made) = BlockQueue::new(limits, slots, tags).unwrap_or_else(|_| panic!("memory"));
    steps();
    (queue, freezer, made.into_iter().map(|tag| tag.into_biased(limits)).collect())
}

/// The steps of a freeze before it looks whether a tag is biased: it closes each slot.
fn freeze_of(slots: u32) -> String {
    format!("|{}-s-s", "w".repeat(slots as usize))
}

/// A freeze of a queue with idle tags issues a heavy fence, before it looks at each lane once. It does so in each life.
#[test]
fn a_freeze_takes_each_bias_behind_a_fence() {
    for slots in SLOTS {
        let (queue, mut freezer, mut tags) = queue(slots, 3);
        let (freeze, opened) = (freeze_of(slots), "s".repeat(slots as usize));
        for life in 0..LIVES {
            // In a later life the tag tries its lane first, and takes itself back.
            let enters = if life == 0 { "lxlll" } else { "slsxlxlll" };
            for (slot, tag) in (slots - 1..).zip(&mut tags) {
                takes(tag.try_enter(&queue, (slot + 1) % slots), BiasedEntry::Entered, enters);
                takes(tag.leave(&queue, slot % slots, true), Put::NotLast, "+lssl");
            }
            let frozen = freezer.start_freeze(&queue).map(|frozen| (frozen.depth, last(frozen)));
            takes(frozen, Ok((1, Put::Last)), &format!("{freeze}lflx-l-slx-l-slx-l-xs"));
            takes(freezer.start_freeze(&queue).map(|frozen| frozen.depth), Ok(2), "");
            takes(freezer.poll_drained(&queue), true, "l");
            takes(freezer.set(&queue, Limits::start(8).expect("limits")), Ok(()), "llslsls");
            takes(freezer.thaw(&queue).map(|thawed| thawed.depth), Ok(1), "");
            takes(freezer.thaw(&queue).map(|thawed| thawed.depth), Ok(0), &format!("+s&+{opened}s"));
        }
    }
}

/// However many tags are biased, a freeze issues one heavy fence, and then looks at each lane once.
#[test]
fn a_freeze_of_many_biased_tags_has_one_fence() {
    for biased in [1, 63, 64, 65, 255, 1_023] {
        let (queue, mut freezer, mut tags) = queue(1, biased);
        for _ in 0..LIVES {
            for tag in &mut tags {
                assert_eq!(tag.try_enter(&queue, 0), BiasedEntry::Entered);
                assert_eq!(tag.leave(&queue, 0, true), Put::NotLast);
            }
            steps();
            assert_eq!(freezer.start_freeze(&queue).map(last), Ok(Put::Last));
            let taken = steps();
            let (before, after) = taken.split_once('f').expect("a fence");
            assert_eq!(
                (before, after.matches('f').count()),
                (format!("{}l", freeze_of(1)).as_str(), 0),
                "{biased} tags"
            );
            // The look, the exchange that takes the pass, its put, and the store that gives it back.
            assert_eq!(after.matches("lx-l").count(), biased as usize, "{biased} tags: {after}");
            assert_eq!(freezer.thaw(&queue).map(|thawed| thawed.depth), Ok(0));
        }
    }
}

/// A freeze looks at a tag that is in once, and so does each poll. A set before the drain looks once too.
#[test]
fn a_look_in_vain_is_one_load() {
    let limits = Limits::start(8).expect("limits");
    for slots in SLOTS {
        let (queue, mut freezer, mut tags) = queue(slots, 2);
        for life in 0..LIVES {
            let slot = (slots - 1 + life as u32) % slots;
            for tag in &mut tags {
                assert_eq!(tag.try_enter(&queue, slot), BiasedEntry::Entered);
            }
            assert_eq!(tags[0].leave(&queue, slot, true), Put::NotLast);
            assert_eq!(tags[0].try_enter(&queue, slot), BiasedEntry::Entered);
            steps();
            let frozen = freezer.start_freeze(&queue).map(last);
            takes(frozen, Ok(Put::NotLast), &format!("{}lfllx", freeze_of(slots)));
            takes(freezer.poll_drained(&queue), false, "l");
            takes(freezer.set(&queue, limits), Err(FreezeFault::NotDrained), "l");
            takes(tags[0].leave(&queue, slot, true), Put::NotLast, "slsx-l-");
            takes(freezer.poll_drained(&queue), false, "l");
            takes(freezer.set(&queue, limits), Err(FreezeFault::NotDrained), "l");
            takes(tags[1].leave(&queue, slot, true), Put::Last, "+l-l-x");
            assert!(freezer.poll_drained(&queue));
            assert_eq!(freezer.thaw(&queue).map(|thawed| thawed.depth), Ok(0));
            steps();
        }
    }
}

/// Tags that could not be parked, since a freeze found them in, count for no later freeze: it issues no fence and looks at no lane.
#[test]
fn a_freeze_without_a_bias_looks_at_no_lane() {
    for slots in SLOTS {
        let (queue, mut freezer, mut tags) = queue(slots, 3);
        for life in 0..LIVES {
            let slot = (slots - 1 + life as u32) % slots;
            for tag in &mut tags {
                assert_eq!(tag.try_enter(&queue, slot), BiasedEntry::Entered);
            }
            steps();
            let frozen = freezer.start_freeze(&queue).map(last);
            takes(frozen, Ok(Put::NotLast), &format!("{}l", freeze_of(slots)));
            for (tag, put) in tags.iter_mut().zip([Put::NotLast, Put::NotLast, Put::Last]) {
                assert_eq!(tag.leave(&queue, slot, true), put);
            }
            assert_eq!(freezer.thaw(&queue).map(|thawed| thawed.depth), Ok(0));
        }
    }
}

/// A removal that is refused, since some tags are parked, takes no step and changes nothing: the next freeze takes the bias of each.
#[test]
fn a_removal_in_vain_leaves_each_bias() {
    for (slots, parked) in SLOTS.into_iter().flat_map(|slots| (1..=4).map(move |parked| (slots, parked))) {
        let (queue, freezer, mut tags) = queue(slots, 4);
        let others: Vec<_> = tags
            .split_off(parked)
            .into_iter()
            .map(|tag| tag.into_tag().unwrap_or_else(|_| panic!("a biased tag")))
            .collect();
        for tag in &mut tags {
            assert_eq!(tag.try_enter(&queue, slots - 1), BiasedEntry::Entered);
            assert_eq!(tag.leave(&queue, 0, true), Put::NotLast);
        }
        steps();
        let Err(refused) = freezer.remove(queue, others) else { panic!("a queue without its tags") };
        takes((refused.why, refused.tags.len()), (FreezeFault::TagsOut(parked as u32), 4 - parked), "");
        let (queue, mut freezer) = (refused.queue, refused.freezer);
        let lanes = "lx-l-s".repeat(parked - 1) + "lx-l-xs" + &"lx".repeat(4 - parked);
        let frozen = freezer.start_freeze(&queue).map(last);
        takes(frozen, Ok(Put::Last), &format!("{}lf{lanes}", freeze_of(slots)));
        takes(freezer.poll_drained(&queue), true, "l");
    }
}
