//! Gates, their machine and queues.

use crate::{Sizes, draw};
use blkq::erased::freeze_queue::{BlockQueue, Limits, MOST_TAGS};
use blkq::erased::percpu_core::ControlEvent::{ClearDead, Confirm, DropBase, Mark, MarkDead, NextFront, TakeBase};
use blkq::erased::percpu_core::PassEvent::{AddTry, LoadFront, LoadWord, Look, LookShared, Sub};
use blkq::erased::percpu_core::{Event, NotEnabled, ReplayFault, Start, World, replay};
use blkq::erased::percpu_gate::{Gate, KILL_LIMIT, PASS_LIMIT, SLOT_LIMIT};

const STARTS: [Start; 3] = [Start::Slots, Start::Atomic, Start::Dead];

/// Steps that each pass can take in any live gate.
fn events(sizes: &mut Sizes, passes: u32, is_live: bool) -> Vec<Event> {
    let mut events = vec![];
    for _ in 0..sizes.count(0, 100_000) / 2 {
        let pass = sizes.small(0, passes - 1);
        let two = if is_live { [AddTry, Sub(1)] } else { [LookShared, LoadFront] };
        events.extend(two.map(|event| Event::Pass(pass, event)));
    }
    events
}

/// The steps of a kill of an atomic gate that nothing holds, and of its revival.
const LIFE: [Event; 7] = [
    Event::Control(MarkDead),
    Event::Control(Confirm),
    Event::Control(DropBase),
    Event::Control(Mark),
    Event::Control(TakeBase),
    Event::Control(NextFront),
    Event::Control(ClearDead),
];

#[test]
fn worlds_and_replays() {
    draw(4_000, |sizes| {
        let (slots, passes) = (sizes.small(1, SLOT_LIMIT), sizes.small(1, PASS_LIMIT));
        let (start, kills) = (sizes.one_of(&STARTS), sizes.size(0, KILL_LIMIT));
        let words: Vec<u64> = (0..sizes.count(0, 8)).map(|_| sizes.size(0, u64::MAX)).collect();
        let first = match kills {
            0 => World::new(slots, passes, start, &words),
            _ => World::with_kills(slots, passes, start, kills, &words),
        };
        let mut world = first.unwrap();
        let lives = if start == Start::Atomic { sizes.size(0, 50).min(KILL_LIMIT - kills) } else { 0 };
        (0..lives).for_each(|_| assert_eq!(replay(&mut world, &LIFE).unwrap().len(), LIFE.len()));
        let events = events(sizes, passes, start != Start::Dead);
        let replies = replay(&mut world, &events).unwrap();
        let copy = world.copy().unwrap();
        assert_eq!((replies.len(), copy.kills(), copy.held_by_all()), (events.len(), kills + lives, 0));
        assert!(copy.is_same(&world));
    });
}

/// A replay ends at the first event that isn't enabled, wherever it stands, and says which. The references that were taken until then are in
/// the world and in its copy, which goes on by itself.
#[test]
fn held_worlds_and_refused_events() {
    draw(2_000, |sizes| {
        let (slots, passes) = (sizes.small(1, SLOT_LIMIT), sizes.small(1, PASS_LIMIT));
        let start = sizes.one_of(&[Start::Slots, Start::Atomic]);
        let words: Vec<u64> = (0..sizes.small(0, 8)).map(|_| sizes.size(0, u64::MAX)).collect();
        let mut world = World::new(slots, passes, start, &words).unwrap();
        let (held, later) = (sizes.count(0, 40_000), sizes.count(0, 40_000));
        let takes = |sizes: &mut Sizes| Event::Pass(sizes.small(0, passes - 1), AddTry);
        let (event, why) = sizes.one_of(&[
            (Event::Pass(passes, LoadFront), NotEnabled::NoSuchActor),
            (Event::Pass(0, Look(slots)), NotEnabled::NoSuchSlot),
            (Event::Pass(0, LoadWord(words.len() as u32)), NotEnabled::NoSuchWord),
            (Event::Control(TakeBase), NotEnabled::WrongPhase),
        ]);
        let mut events: Vec<Event> = (0..held).map(|_| takes(sizes)).collect();
        events.push(event);
        events.extend((0..later).map(|_| takes(sizes)));
        assert_eq!(replay(&mut world, &events).unwrap_err(), ReplayFault::Stuck { at: held, why });
        assert_eq!((world.held_by_all(), world.kills()), (held as u64, 0));
        let mut copy = world.copy().unwrap();
        assert!(copy.is_same(&world));
        assert_eq!(replay(&mut copy, &[Event::Control(MarkDead)]).unwrap().len(), 1);
        assert_eq!((copy.held_by_all(), copy.kills(), world.kills()), (held as u64, 1, 0));
        assert!(copy.copy().unwrap().is_same(&copy) && !copy.is_same(&world));
    });
}

/// A gate of so many guarded words, from its making to its end.
fn gate<const W: usize>(sizes: &mut Sizes) {
    let (slots, passes) = (sizes.small(1, SLOT_LIMIT), sizes.small(1, PASS_LIMIT));
    let start = sizes.one_of(&STARTS);
    let words = [(); W].map(|()| sizes.size(0, u64::MAX));
    let (gate, mut control, made) = Gate::<W>::new(slots, passes, start, words).unwrap();
    assert_eq!((gate.slots(), made.len() as u32, control.words()), (slots, passes, words));
    for pass in made {
        control.retire(&gate, pass);
    }
    let ended = gate.exit(control).map_err(|refused| refused.why).unwrap();
    assert_eq!((ended.words, ended.dead), (words, start == Start::Dead));
}

#[test]
fn gates() {
    const OF_WORDS: [fn(&mut Sizes); 9] =
        [gate::<0>, gate::<1>, gate::<2>, gate::<3>, gate::<4>, gate::<5>, gate::<6>, gate::<7>, gate::<8>];
    draw(20_000, |sizes| sizes.one_of(&OF_WORDS)(sizes));
}

/// Limits of any device.
pub fn limits(sizes: &mut Sizes) -> Limits {
    let hardware = sizes.small(1, 65_535);
    let mut limits = Limits::new(hardware, sizes.small(0, hardware), sizes.small(0, 65_535)).unwrap();
    limits.set_physical(1 << sizes.small(0, 15)).unwrap();
    limits
}

/// Queues, each of which is frozen some times.
#[test]
fn queues() {
    draw(4_000, |sizes| {
        let (slots, tags, freezes) = (sizes.small(1, SLOT_LIMIT), sizes.small(1, MOST_TAGS), sizes.size(0, 1_000));
        let (queue, mut freezer, mut all) = BlockQueue::new(limits(sizes), slots, tags).unwrap();
        assert_eq!((queue.slots(), all.len() as u32), (slots, tags));
        for freeze in 0..freezes {
            let (tag, slot) = (&mut all[freeze as usize % tags as usize], freeze as u32 % slots);
            queue.enter(tag, slot);
            queue.leave(tag, slot);
            assert_eq!(freezer.freeze(&queue), Ok(1));
            assert_eq!(freezer.thaw(&queue), Ok(0));
        }
        let last = freezer.remove(queue, all).map_err(|refused| refused.why).unwrap();
        assert_eq!(last.kills, freezes + 1);
    });
}
