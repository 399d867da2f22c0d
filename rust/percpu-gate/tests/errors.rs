//! Each error's text, and what a refusal that hands a value back says of it.
use percpu_gate::guarded::{self, ChangeError};
use percpu_gate::{
    ExitError, Gate, GetError, KillError, NewError, NextPassError, ReinitError, ResurrectError, RetireError, SlotError,
    Start, StoreError, TryGetError, Word,
};
use std::error::Error;
use std::sync::Arc;

#[test]
fn texts() {
    let all: [(Box<dyn Error>, &str); 19] = [
        (NewError::Size.into(), "number of slots or passes out of range"),
        (NewError::NoMemory.into(), "no memory"),
        (NextPassError::NoSlot.into(), "no such slot"),
        (NextPassError::NoPass.into(), "every pass is out"),
        (SlotError::NoSlot.into(), "no such slot"),
        (TryGetError::NotGiven.into(), "no reference is given"),
        (TryGetError::HeldFull.into(), "the pass would hold more than 65535 references"),
        (GetError::HeldFull.into(), "the pass would hold more than 65535 references"),
        (RetireError::OtherGate.into(), "the pass is of another gate"),
        (RetireError::StillHeld.into(), "the pass holds references"),
        (ExitError::PassesOut.into(), "passes aren't retired"),
        (KillError::AlreadyDead.into(), "the gate is dead already"),
        (KillError::WornOut.into(), "the gate was killed 2^40 times"),
        (ReinitError::NotDead.into(), "the gate isn't dead"),
        (ReinitError::NotZero.into(), "references are held"),
        (ResurrectError::NotDead.into(), "the gate isn't dead"),
        (StoreError::NotZero.into(), "references are held"),
        (ChangeError::NotDead.into(), "the gate isn't dead"),
        (ChangeError::NotZero.into(), "references are held"),
    ];
    for (error, text) in all {
        assert_eq!(error.to_string(), text);
    }
    assert_eq!(StoreError::NotDead.to_string(), "the gate isn't dead");
}

#[test]
fn what_is_handed_back_says_why() {
    let gate = |start| guarded::Gate::new(7, 1, 1, start, Arc::new(|| {})).unwrap();
    let Err(refused) = guarded::Gate::new(7, 0, 1, Start::Slots, Arc::new(|| {})) else {
        panic!("a gate without slots")
    };
    assert_eq!((refused.to_string().as_str(), refused.value), ("number of slots or passes out of range", 7));
    let mut live = gate(Start::Slots);
    assert!(format!("{live:?}").starts_with("Gate"));
    assert_eq!(live.next_pass(1).map(drop), Err(NextPassError::NoSlot));
    let refused = live.remove().map(drop).unwrap_err();
    assert_eq!(format!("{refused:?}"), "HandedBack { reason: NotDead, .. }");
    assert_eq!(Box::<dyn Error>::from(refused).to_string(), "the gate isn't dead");
    let refused = gate(Start::Atomic).remove().map(drop).unwrap_err();
    assert_eq!(Box::<dyn Error + Send + Sync>::from(refused).to_string(), "the gate isn't dead");
    let mut plain = Gate::new(1, 1, Start::Slots, [0; 8], Arc::new(|| {})).unwrap();
    let pass = plain.next_pass(0).unwrap();
    let refused = plain.exit().map(drop).unwrap_err();
    drop(pass);
    assert_eq!(Box::<dyn Error>::from(refused).to_string(), "passes aren't retired");
}

#[test]
fn there_are_eight_words() {
    assert_eq!((0..10).filter_map(Word::new).count(), 8);
    assert_eq!(Word::new(7), Some(Word::ALL[7]));
}
