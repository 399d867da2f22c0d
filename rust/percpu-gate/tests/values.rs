//! Tests a gate that guards a value: `&T` under a reference, `&mut T` while the gate is dead and at zero, and T at the end. Also run under
//! the thread sanitizer and by Miri.
use percpu_gate::guarded::{ChangeError, Gate, Pass};
use percpu_gate::{NewError, RetireError, Start, TryGetError};
use std::env;
use std::error::Error;
use std::mem;
use std::panic::{AssertUnwindSafe, catch_unwind};
use std::sync::Arc;
use std::sync::atomic::{AtomicU64, Ordering::Relaxed};
use std::thread;

fn gate<T>(value: T, start: Start) -> Gate<T> {
    Gate::new(value, 2, 4, start, Arc::new(|| {})).unwrap()
}

/// Counts its drops.
#[derive(Debug)]
struct Dropped(Arc<AtomicU64>);

impl Drop for Dropped {
    fn drop(&mut self) {
        self.0.fetch_add(1, Relaxed);
    }
}

/// Settings that belong together.
struct Device {
    first: u64,
    settings: Vec<u64>,
}

fn serve(pass: &Pass<Device>) -> Result<(), TryGetError> {
    let device = pass.try_get_live()?;
    assert!(!device.settings.is_empty() && device.settings.iter().all(|it| *it == device.first));
    Ok(())
}

fn drain<T>(gate: &mut Gate<T>) {
    gate.kill().unwrap();
    while !gate.is_zero() {
        thread::yield_now();
    }
}

/// References see each change whole, although a change frees what they read before. At the end the device is removed under them.
#[test]
fn references_beside_changes() {
    let lives = env::var("PERCPU_GATE_LIVES").map_or(500, |it| it.parse().unwrap());
    let lives = if cfg!(miri) { 5 } else { lives };
    let mut gate = gate(Device { first: 0, settings: vec![0] }, Start::Slots);
    let passes = [0, 1, 0].map(|slot| gate.next_pass(slot).unwrap());
    let ends = Arc::new(AtomicU64::new(0));
    let threads = passes.map(|pass| {
        let ends = Arc::clone(&ends);
        thread::spawn(move || {
            while ends.load(Relaxed) == 0 {
                let _refused = serve(&pass);
            }
            assert_eq!(serve(&pass), Err(TryGetError::NotGiven));
            pass // the sanitizer doesn't see the fence by which the last share of an `Arc` is freed
        })
    });
    for life in 1..=lives {
        drain(&mut gate);
        let device = gate.get_mut().unwrap();
        device.first = life;
        device.settings = vec![life; 1 + usize::try_from(life % 7).unwrap()];
        gate.reinit().unwrap();
    }
    drain(&mut gate);
    let device = gate.remove().unwrap();
    ends.store(1, Relaxed);
    for thread in threads {
        drop(thread.join().unwrap());
    }
    assert_eq!(device.first, lives);
}

#[test]
fn each_call_lends_the_value() -> Result<(), Box<dyn Error + Send + Sync>> {
    let mut gate = gate(String::from("disk"), Start::Slots);
    let pass = gate.next_pass(0)?;
    let (one, other) = (pass.try_get()?, pass.try_get_live()?);
    assert_eq!((one.as_str(), other.try_clone()?.len(), format!("{one:?}")), ("disk", 4, "Reference(\"disk\")".into()));
    drop((one, other));
    assert_eq!(gate.get_mut(), Err(ChangeError::NotDead));
    let request = pass.into_reference_live()?;
    gate.kill_and_confirm(|front| assert_eq!(front, 1))?;
    assert_eq!(gate.get_mut(), Err(ChangeError::NotZero));
    assert_eq!((request.len(), format!("{request:?}")), (4, "OwnedReference(\"disk\")".into()));
    let pass = request.put();
    assert_eq!(pass.try_get().unwrap_err(), TryGetError::NotGiven);
    gate.get_mut()?.push('s');
    gate.resurrect()?;
    gate.switch_to_atomic();
    assert_eq!(*pass.try_get_live()?, "disks");
    gate.switch_to_slots();
    gate.retire(pass)?;
    let refused = gate.remove().unwrap_err();
    assert_eq!(refused.reason, ChangeError::NotDead);
    gate = refused.value;
    gate.kill()?;
    assert_eq!(gate.remove()?, "disks");
    Ok(())
}

#[test]
fn refusals_hand_back() {
    let refused = Gate::new(String::from("disk"), 1, 1025, Start::Slots, Arc::new(|| {})).unwrap_err();
    assert_eq!((refused.value.as_str(), refused.reason), ("disk", NewError::Size));
    let (mut here, mut there) = (gate(1, Start::Slots), gate(2, Start::Dead));
    let refused = there.retire(here.next_pass(0).unwrap()).unwrap_err();
    assert_eq!((*refused.value.try_get().unwrap(), refused.reason), (1, RetireError::OtherGate));
    let refused = there.next_pass(0).unwrap().into_reference_live().unwrap_err();
    assert_eq!(refused.reason, TryGetError::NotGiven);
    there.retire(refused.value).unwrap();
}

/// A leaked reference is held forever: the value is never lent for a change, and is dropped with the last pass.
#[test]
fn what_is_forgotten_stays() {
    let dropped = Arc::new(AtomicU64::new(0));
    let mut gate = gate(Dropped(Arc::clone(&dropped)), Start::Slots);
    let pass = gate.next_pass(0).unwrap();
    mem::forget(pass.try_get_live().unwrap());
    gate.kill().unwrap();
    assert_eq!(gate.get_mut().unwrap_err(), ChangeError::NotZero);
    let gate = gate.remove().unwrap_err().value;
    drop(gate);
    assert_eq!(dropped.load(Relaxed), 0, "the pass has a share of it");
    drop(pass);
    assert_eq!(dropped.load(Relaxed), 1);
}

/// Each way to end a gate drops its value once, and not while a reference exists.
#[test]
fn the_value_is_dropped_once() {
    let dropped = Arc::new(AtomicU64::new(0));
    let value = || Dropped(Arc::clone(&dropped));
    let mut control = gate(value(), Start::Slots);
    let request = control.next_pass(0).unwrap().into_reference_live().unwrap();
    drop(control);
    assert_eq!((dropped.load(Relaxed), Arc::strong_count(&request.0)), (0, 2));
    drop(request);
    assert_eq!(dropped.load(Relaxed), 1);
    let mut control = gate(value(), Start::Dead);
    let pass = control.next_pass(0).unwrap();
    *control.get_mut().unwrap() = value();
    assert_eq!(dropped.load(Relaxed), 2);
    drop(control.remove().unwrap());
    assert_eq!(dropped.load(Relaxed), 3);
    drop(pass);
    drop(Gate::new(value(), 513, 1, Start::Slots, Arc::new(|| {})).unwrap_err());
    assert_eq!(dropped.load(Relaxed), 4);
}

/// A thread that panics with a reference puts it. A thread that panics while it changes the value leaves the value as it is.
#[test]
fn panics_in_the_middle() {
    let mut gate = gate(vec![1], Start::Slots);
    let pass = gate.next_pass(0).unwrap();
    let reads = catch_unwind(AssertUnwindSafe(|| {
        let reference = pass.try_get_live().unwrap();
        assert_eq!(*reference, [1]);
        panic!("in flight");
    }));
    assert!(reads.is_err());
    gate.kill().unwrap();
    let changes = catch_unwind(AssertUnwindSafe(|| {
        gate.get_mut().unwrap().push(2);
        panic!("halfway");
    }));
    assert!(changes.is_err());
    gate.reinit().unwrap();
    assert_eq!(*pass.try_get_live().unwrap(), [1, 2]);
}

/// If `on_last` panics in the drop of the last reference, the value can still be lent.
#[test]
fn on_last_panics() {
    let mut gate = Gate::new(vec![1], 1, 1, Start::Slots, Arc::new(|| panic!("powered off"))).unwrap();
    let pass = gate.next_pass(0).unwrap();
    let reference = pass.try_get_live().unwrap();
    gate.kill().unwrap();
    assert!(catch_unwind(AssertUnwindSafe(|| drop(reference))).is_err());
    gate.get_mut().unwrap().push(2);
    assert_eq!(gate.remove().unwrap(), [1, 2]);
}
