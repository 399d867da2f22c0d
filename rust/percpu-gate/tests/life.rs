//! Tests each call on one thread: its result, each error, and that an error changes nothing.
use percpu_gate::{
    ExitError, Final, Gate, GetError, KillError, Killed, NewError, NextPassError, OnLast, Pass, Phase, ReinitError,
    ResurrectError, RetireError, Revived, SlotError, Start, StoreError, TryGetError, Word,
};
use std::error::Error;
use std::mem;
use std::sync::Arc;
use std::sync::atomic::{AtomicU64, Ordering};

const WORDS: [u64; 8] = [3, 0, 0, 0, 0, 0, 0, u64::MAX];

/// A gate, and the number of calls of its `on_last`.
fn gate(slots: u32, passes: u32, start: Start) -> (Gate, Arc<AtomicU64>) {
    let released = Arc::new(AtomicU64::new(0));
    let count = Arc::clone(&released);
    let on_last: OnLast = Arc::new(move || {
        count.fetch_add(1, Ordering::SeqCst);
    });
    (Gate::new(slots, passes, start, WORDS, on_last).unwrap(), released)
}

fn released(count: &AtomicU64) -> u64 {
    count.load(Ordering::SeqCst)
}

fn with_pass() -> (Gate, Pass, Arc<AtomicU64>) {
    let (mut control, count) = gate(2, 2, Start::Slots);
    let pass = control.next_pass(0).unwrap();
    (control, pass, count)
}

#[test]
fn sizes() {
    for (slots, passes) in [(0, 1), (513, 1), (1, 0), (1, 1025), (u32::MAX, u32::MAX)] {
        let refused = Gate::new(slots, passes, Start::Slots, WORDS, Arc::new(|| {}));
        assert_eq!(refused.unwrap_err(), NewError::Size);
    }
    for (slots, passes) in [(1, 1), (512, 1024), (1, 1024), (512, 1), (64, 64)] {
        let (mut control, _) = gate(slots, passes, Start::Slots);
        let all: Vec<Pass> = (0..passes).map(|i| control.next_pass(i % slots).unwrap()).collect();
        assert_eq!(control.next_pass(slots).unwrap_err(), NextPassError::NoSlot);
        assert_eq!(control.next_pass(0).unwrap_err(), NextPassError::NoPass);
        let held: Vec<_> = all.iter().map(|pass| pass.try_get_live().unwrap()).collect();
        assert_eq!(control.kill(), Ok(Killed::WhileHeld));
        drop(held);
        assert!(control.is_zero());
        for pass in all {
            control.retire(pass).unwrap();
        }
        assert_eq!(control.exit().unwrap(), Final { dead: true, kills: 1, releases: 1, words: WORDS });
    }
}

#[test]
fn starts() {
    let wanted =
        [(Start::Slots, Phase::LiveOnSlots, 0), (Start::Atomic, Phase::LiveAtomic, 0), (Start::Dead, Phase::Dead, 1)];
    for (start, phase, front) in wanted {
        let (mut control, count) = gate(3, 1, start);
        let pass = control.next_pass(2).unwrap();
        let is_dead = start == Start::Dead;
        assert_eq!((control.phase(), pass.front()), (phase, front));
        assert_eq!((pass.is_dying(), pass.is_zero(), control.is_zero()), (is_dead, is_dead, is_dead));
        assert_eq!(pass.try_get().is_ok(), !is_dead);
        assert_eq!(pass.try_get_live().is_ok(), !is_dead);
        assert_eq!(control.words(), WORDS);
        control.retire(pass).unwrap();
        assert_eq!(control.exit().unwrap(), Final { dead: is_dead, kills: 0, releases: 0, words: WORDS });
        assert_eq!(released(&count), 0);
    }
}

#[test]
fn a_kill_with_and_without_references() {
    let (mut control, pass, count) = with_pass();
    assert_eq!(control.kill(), Ok(Killed::AtZero));
    assert_eq!(released(&count), 1);
    assert_eq!(control.kill(), Err(KillError::AlreadyDead));
    assert_eq!(control.kill_and_confirm(|_| unreachable!()), Err(KillError::AlreadyDead));
    assert_eq!(control.reinit(), Ok(()));
    let (one, other) = (pass.try_get_live().unwrap(), pass.try_get().unwrap());
    assert_eq!(control.kill(), Ok(Killed::WhileHeld));
    assert_eq!(pass.try_get_live().unwrap_err(), TryGetError::NotGiven);
    let more = pass.try_get().unwrap();
    drop((one, other));
    assert_eq!((released(&count), control.is_zero()), (1, false));
    drop(more);
    assert_eq!((released(&count), control.is_zero()), (2, true));
    assert_eq!(pass.try_get().unwrap_err(), TryGetError::NotGiven);
    assert_eq!((control.kills(), control.releases()), (2, 1)); // the pass's is counted when it is retired
    control.retire(pass).unwrap();
    assert_eq!((control.kills(), control.releases()), (2, 2));
    assert_eq!(released(&count), 2);
}

#[test]
fn a_confirmed_kill() {
    for start in [Start::Slots, Start::Atomic] {
        let (mut control, count) = gate(3, 1, start);
        let pass = control.next_pass(0).unwrap();
        let reference = pass.try_get_live().unwrap();
        let mut called = 0;
        let killed = control.kill_and_confirm(|front| {
            called += 1;
            assert_eq!((front, pass.front()), (1, 1));
            assert!(pass.is_dying() && !pass.is_zero());
            assert_eq!(pass.try_get_live().unwrap_err(), TryGetError::NotGiven);
            drop(reference);
            assert!(!pass.is_zero()); // the initial reference is there still
        });
        assert_eq!((killed, called, released(&count)), (Ok(Killed::AtZero), 1, 1));
        assert_eq!(control.reinit(), Ok(()));
        let reference = pass.try_get_live().unwrap();
        assert_eq!(control.kill_and_confirm(|front| assert_eq!(front, 3)), Ok(Killed::WhileHeld));
        drop(reference);
        assert_eq!(released(&count), 2);
    }
}

#[test]
fn revivals() {
    let (mut control, pass, count) = with_pass();
    assert_eq!(control.reinit(), Err(ReinitError::NotDead));
    assert_eq!(control.resurrect(), Err(ResurrectError::NotDead));
    let reference = pass.try_get_live().unwrap();
    control.kill().unwrap();
    assert_eq!(control.reinit(), Err(ReinitError::NotZero));
    assert_eq!(control.phase(), Phase::Dead);
    assert_eq!(control.resurrect(), Ok(Revived::WhileHeld));
    drop(reference);
    assert_eq!((released(&count), pass.front()), (0, 2)); // that kill has no release
    control.kill().unwrap();
    assert_eq!(control.resurrect(), Ok(Revived::FromZero));
    control.kill().unwrap();
    assert_eq!(control.reinit(), Ok(()));
    assert_eq!((released(&count), pass.front(), control.kills()), (2, 6, 3));
}

#[test]
fn modes() {
    let (mut control, pass, _) = with_pass();
    let reference = pass.try_get_live().unwrap();
    control.switch_to_atomic();
    assert_eq!(control.phase(), Phase::LiveAtomic);
    let another = pass.try_get_live().unwrap();
    control.switch_to_slots();
    control.switch_to_slots();
    assert_eq!(control.phase(), Phase::LiveOnSlots);
    drop((reference, another));
    control.kill().unwrap();
    control.switch_to_atomic();
    assert_eq!(control.phase(), Phase::Dead);
    control.reinit().unwrap();
    assert_eq!(control.phase(), Phase::LiveAtomic);
}

#[test]
fn guarded_words() {
    let (mut control, pass, _) = with_pass();
    let reference = pass.try_get_live().unwrap();
    assert_eq!(reference.words(), WORDS);
    assert_eq!(reference.word(Word::ALL[7]), u64::MAX);
    assert_eq!(control.store_word(Word::ALL[0], 9), Err(StoreError::NotDead));
    control.kill().unwrap();
    assert_eq!(control.store_word(Word::ALL[0], 9), Err(StoreError::NotZero));
    assert_eq!(reference.words(), WORDS);
    drop(reference);
    for word in Word::ALL {
        control.store_word(word, 10 + u64::from(word.number())).unwrap();
    }
    control.reinit().unwrap();
    let wanted = [10, 11, 12, 13, 14, 15, 16, 17];
    assert_eq!(pass.try_get_live().unwrap().words(), wanted);
    assert_eq!(control.words(), wanted);
}

#[test]
fn slots() {
    let (mut control, pass, count) = with_pass();
    assert_eq!(pass.slot(), 0);
    let reference = pass.try_get_live().unwrap();
    assert_eq!(pass.use_slot(2), Err(SlotError::NoSlot));
    assert_eq!(pass.use_slot(u32::MAX), Err(SlotError::NoSlot));
    assert_eq!(pass.slot(), 0);
    pass.use_slot(1).unwrap();
    assert_eq!(pass.slot(), 1);
    drop(reference);
    assert_eq!(control.kill(), Ok(Killed::AtZero));
    assert_eq!(released(&count), 1);
}

#[test]
fn as_many_references_as_there_are() {
    let (mut control, pass, count) = with_pass();
    let first = pass.try_get_live().unwrap();
    let most: Vec<_> = (1..Gate::MAX_HELD).map(|_| first.try_clone().unwrap()).collect();
    assert_eq!(first.try_clone().unwrap_err(), GetError::HeldFull);
    assert_eq!(pass.try_get().unwrap_err(), TryGetError::HeldFull);
    assert_eq!(pass.try_get_live().unwrap_err(), TryGetError::HeldFull);
    control.kill().unwrap();
    drop(first);
    drop(most);
    assert_eq!(released(&count), 1);
    let refused = pass.into_reference().unwrap_err();
    assert_eq!(refused.reason, TryGetError::NotGiven);
    control.retire(refused.value).unwrap();
}

#[test]
fn a_reference_that_takes_its_pass_along() {
    let (mut control, pass, count) = with_pass();
    let request = pass.into_reference_live().unwrap();
    assert_eq!((request.word(Word::ALL[0]), request.words()), (3, WORDS));
    control.kill().unwrap();
    let another = request.pass().try_get().unwrap();
    drop(another);
    assert_eq!(released(&count), 0);
    let pass = request.put();
    assert_eq!(released(&count), 1);
    control.retire(pass).unwrap();
    control.reinit().unwrap();
    let request = control.next_pass(1).unwrap().into_reference().unwrap();
    control.kill().unwrap();
    drop(request); // its reference is put; its pass is out for ever
    assert_eq!(released(&count), 2);
    assert_eq!(control.exit().unwrap_err().reason, ExitError::PassesOut);
}

#[test]
fn the_end() -> Result<(), Box<dyn Error>> {
    let (mut control, pass, _) = with_pass();
    let refused = control.exit().unwrap_err();
    assert_eq!(refused.reason, ExitError::PassesOut);
    control = refused.value;
    let (mut other, _) = gate(1, 1, Start::Dead);
    let refused = other.retire(pass).unwrap_err();
    assert_eq!(refused.reason, RetireError::OtherGate);
    assert_ne!(refused.value.gate_id(), other.id());
    assert_eq!(refused.value.gate_id(), control.id());
    drop(refused.value.try_get_live()?);
    control.retire(refused.value)?;
    other.exit()?;
    assert_eq!(control.exit()?, Final { dead: false, kills: 0, releases: 0, words: WORDS });
    Ok(())
}

#[test]
fn the_question_mark_drops_what_is_handed_back() {
    fn ends(control: Gate) -> Result<Final, ExitError> {
        Ok(control.exit()?)
    }
    fn takes(pass: Pass) -> Result<(), TryGetError> {
        drop(pass.into_reference_live()?);
        Ok(())
    }
    fn retires(control: &mut Gate, pass: Pass) -> Result<(), RetireError> {
        Ok(control.retire(pass)?)
    }
    let (mut control, pass, _) = with_pass();
    let (mut other, _) = gate(1, 1, Start::Dead);
    assert_eq!(retires(&mut other, pass), Err(RetireError::OtherGate));
    assert_eq!(takes(other.next_pass(0).unwrap()), Err(TryGetError::NotGiven));
    assert_eq!(takes(control.next_pass(0).unwrap()), Ok(()));
    assert_eq!(ends(control), Err(ExitError::PassesOut));
}

#[test]
fn what_is_shown() {
    let (mut control, pass, _) = with_pass();
    let number = control.id();
    assert_eq!(format!("{control:?}"), format!("Gate {{ id: {number}, phase: LiveOnSlots, .. }}"));
    assert_eq!(format!("{pass:?}"), format!("Pass {{ gate: {number}, slot: 0, .. }}"));
    let reference = pass.try_get_live().unwrap();
    assert_eq!(format!("{reference:?}"), format!("Reference({pass:?})"));
    let request = control.next_pass(1).unwrap().into_reference().unwrap();
    assert!(format!("{request:?}").starts_with("OwnedReference("));
    control.kill().unwrap();
}

#[test]
fn sizes_in_memory() {
    assert_eq!((align_of::<Pass>(), mem::size_of::<Pass>()), (128, 256));
    assert_eq!(mem::size_of::<percpu_gate::OwnedReference>(), 256);
    assert_eq!(mem::size_of::<percpu_gate::Reference<'_>>(), mem::size_of::<usize>());
}
