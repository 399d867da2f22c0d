//! Tests the gate's machine from inside: schedules that are split anywhere, numbers that no text can have, the words of slots, and what a
//! world and a schedule return. tests/rows has the rows of schedules.

use blkq::erased::gate_replay::parse_schedule;
use blkq::erased::percpu_core::ControlEvent::{AddBias, Close, Collect, OpenNext, StoreWord, TakeBase};
use blkq::erased::percpu_core::Event::{Control, Pass};
use blkq::erased::percpu_core::PassEvent::{AddGet, AddTry, Look, Sub, Take};
use blkq::erased::percpu_core::{ControlEvent, Event, NotEnabled, Phase, ReplayFault, Reply, Start, World, replay};
use blkq::erased::percpu_words::{CLOSED, slot_delta, slot_word};

/// Schedules of examples/, and what each leaves: the shared word, the front, the kills, the releases and the references held.
const AT_ZERO: u64 = 13_835_058_055_282_163_712;
const CUT: [(&str, [u64; 5]); 4] = [
    (include_str!("../../../examples/two_kills.gate"), [AT_ZERO, 3, 2, 1, 0]),
    (include_str!("../../../examples/dead_start.gate"), [AT_ZERO, 3, 1, 1, 0]),
    (include_str!("../../../examples/slots.gate"), [AT_ZERO, 1, 1, 1, 0]),
    (include_str!("../../../examples/undo_after_collect.gate"), [AT_ZERO, 1, 1, 1, 0]),
];

/// The world of a schedule, and its events.
fn opened(text: &str) -> (World, Vec<Event>) {
    let schedule = parse_schedule(text.as_bytes()).unwrap();
    let words = schedule.words.into_vec();
    let world = World::with_kills(schedule.slots, schedule.passes, schedule.start, schedule.kills, &words).unwrap();
    (world, schedule.events.into_vec().into_iter().map(|(_line, event)| event).collect())
}

/// The first events of a schedule and then the rest, replayed on one world, reply and leave what the whole schedule does.
#[test]
fn rows_cut_anywhere() {
    for (text, leaves) in CUT {
        let (mut world, events) = opened(text);
        let whole = replay(&mut world, &events).unwrap();
        for at in 0..=events.len() {
            let (mut world, events) = opened(text);
            let (first, rest) = events.split_at(at);
            let mut replies = replay(&mut world, first).unwrap();
            replies.extend(replay(&mut world, rest).unwrap());
            assert_eq!(replies, whole, "cut at {at}");
            let left = [world.shared(), world.front(), world.kills(), world.releases(), world.held_by_all()];
            assert_eq!((left, world.phase()), (leaves, Phase::Dead));
        }
    }
}

/// The greatest world: its last pass counts on its last slot, and a kill closes each slot.
#[test]
fn the_greatest_world() {
    let mut world = World::with_kills(512, 1_024, Start::Slots, (1 << 40) - 1, &[7; 8]).unwrap();
    let mut events = vec![Pass(1_023, Take { slot: 511, seen: 0, n: 1 }), Control(ControlEvent::MarkDead)];
    events.extend([Control(Close); 512]);
    events.extend([Control(Collect), Pass(1_023, Sub(1))]);
    let replies = replay(&mut world, &events).unwrap();
    let closed = |delta| Reply::Collected(delta);
    assert_eq!(replies[..3], [Reply::Won, Reply::Done, closed(0)]);
    assert_eq!(replies[512..], [closed(0), closed(1), Reply::Done, Reply::NotLast]);
    assert_eq!((world.shared() & (1 << 62), world.kills(), world.held_by_all()), (1 << 62, 1 << 40, 0));
    refuses(&mut world, &[Pass(1_024, AddTry)], NotEnabled::NoSuchActor);
    refuses(&mut world, &[Pass(1_023, Look(512))], NotEnabled::NoSuchSlot);
}

/// Only the last of these events is refused, for this reason.
fn refuses(world: &mut World, events: &[Event], why: NotEnabled) {
    let at = events.len() - 1;
    assert_eq!(replay(world, events).unwrap_err(), ReplayFault::Stuck { at, why }, "{events:?}");
}

/// Amounts and deltas that no line of a schedule can have.
#[test]
fn numbers_beyond_a_text() {
    let live = || World::new(1, 1, Start::Atomic, &[7]).unwrap();
    refuses(&mut live(), &[Pass(1, AddGet(70_000))], NotEnabled::NoSuchActor);
    refuses(&mut live(), &[Pass(0, AddGet(65_536))], NotEnabled::NothingHeld);
    refuses(&mut live(), &[Pass(0, AddTry), Pass(0, AddGet(u32::MAX))], NotEnabled::HeldFull);
    let take = |seen| Pass(0, Take { slot: 0, seen, n: 1 });
    let mut on_slots = World::new(2, 1, Start::Slots, &[]).unwrap();
    refuses(&mut on_slots, &[take(0), take(i64::MAX)], NotEnabled::BadAmount);
}

/// The kills of a gate that is worn out in a schedule, and its phase then.
#[test]
fn a_gate_that_is_worn_out() {
    let (mut world, events) = opened(include_str!("../../../examples/worn_out.gate"));
    refuses(&mut world, &events, NotEnabled::WornOut);
    assert_eq!((world.kills(), world.releases()), (1_099_511_627_776, 1));
    assert_eq!((world.front(), world.phase()), (2_199_023_255_552, Phase::LiveAtomic));
}

/// A live gate that goes to slots and back.
#[test]
fn there_and_back() {
    let mut world = World::new(1, 1, Start::Atomic, &[]).unwrap();
    let take = Pass(0, Take { slot: 0, seen: 0, n: 1 });
    let there = [Control(AddBias), Control(OpenNext), Pass(0, Look(0)), take, take];
    let replies = [Reply::Done, Reply::Done, Reply::Opened(0), Reply::Won, Reply::Lost];
    assert_eq!(replay(&mut world, &there).unwrap(), replies);
    assert_eq!((world.phase(), world.slot(0)), (Phase::LiveSlots, 4_294_967_297));
    let back = [Control(Close), Pass(0, Look(0)), take, Control(Collect), Control(ControlEvent::LookShared)];
    let replies = [Reply::Collected(1), Reply::Closed, Reply::Lost, Reply::Done, Reply::Shared(2)];
    assert_eq!(replay(&mut world, &back).unwrap(), replies);
    assert_eq!((world.phase(), world.slot(0), world.held(0)), (Phase::LiveAtomic, CLOSED, 1));
}

/// The words of a world, before and after a step stores one.
#[test]
fn a_world_has_its_words() {
    let mut world = World::new(1, 1, Start::Dead, &[7, 8]).unwrap();
    assert_eq!(replay(&mut world, &[Control(StoreWord { k: 1, v: 9 })]).unwrap(), [Reply::Done]);
    assert_eq!((world.word(0), world.word(1)), (7, 9));
}

/// More pairs of steps than a schedule's text has room for: each step has its reply, and the step after them isn't enabled.
#[test]
fn very_many_steps() {
    let mut world = World::new(1, 1, Start::Atomic, &[]).unwrap();
    let mut events = [Pass(0, AddTry), Pass(0, Sub(1))].repeat(75_000);
    assert_eq!(replay(&mut world, &events).unwrap(), [Reply::Given, Reply::NotLast].repeat(75_000));
    assert_eq!((world.shared(), world.held_by_all()), (1, 0));
    events.push(Control(TakeBase));
    refuses(&mut world, &events, NotEnabled::WrongPhase);
    assert_eq!((world.shared(), world.held_by_all()), (1, 0));
}

/// The words of deltas, by hand.
#[test]
fn words_of_slots() {
    let deltas = [(4_294_967_296, 0), (4_294_967_295, -1), (4_296_015_872, 1_048_576), (4_293_918_720, -1_048_576)];
    for (word, delta) in deltas {
        assert_eq!(slot_delta(word), Some(delta));
    }
    assert_eq!(slot_word(-1), 4_294_967_295);
    for word in [0, CLOSED, 4_296_015_873, 4_293_918_719] {
        assert_eq!(slot_delta(word), None);
    }
}

#[test]
fn refusals_in_words() {
    for (why, number, text) in [
        (NotEnabled::NoSuchActor, 1, "no such actor"),
        (NotEnabled::NoSuchSlot, 2, "no such slot"),
        (NotEnabled::WrongPhase, 3, "wrong phase"),
        (NotEnabled::NothingHeld, 4, "nothing held"),
        (NotEnabled::MidCall, 5, "mid call"),
        (NotEnabled::HeldFull, 6, "held full"),
        (NotEnabled::WornOut, 7, "worn out"),
        (NotEnabled::NoSuchWord, 8, "no such word"),
        (NotEnabled::BadAmount, 9, "bad amount"),
        (NotEnabled::StillHeld, 10, "still held"),
    ] {
        assert_eq!((why.number(), why.to_string().as_str()), (number, text));
    }
}

#[test]
fn a_schedule_has_its_parts() {
    let schedule = parse_schedule(b"gate 1\nworld 2 3 dead 4 5 6\n\n2 sub 9\nc store 1 8\n").unwrap();
    assert_eq!((schedule.slots, schedule.passes, schedule.kills), (2, 3, 4));
    assert_eq!(schedule.start, Start::Dead);
    assert_eq!(schedule.words.as_slice(), [5, 6]);
    assert_eq!(schedule.words.into_vec(), [5, 6]);
    let steps = [(4, Pass(2, Sub(9))), (5, Control(StoreWord { k: 1, v: 8 }))];
    assert_eq!(schedule.events.as_slice(), steps);
    assert_eq!(schedule.events.into_vec(), steps);
}
