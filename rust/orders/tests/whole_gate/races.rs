//! The races: a value that a gate guards, while references come and go, and its control kills, changes and revives.
use crate::Start;
use crate::guarded::{Gate, OwnedReference, Pass};
use crate::value::Value;
use orders::turns::{Failed, Play, Turns};
use std::sync::atomic::{AtomicU64, Ordering::SeqCst};
use std::sync::{Arc, Mutex};

struct Parts {
    gate: Mutex<Option<Gate<Value>>>,
    passes: [Mutex<Option<Pass<Value>>>; 2],
    released: Arc<AtomicU64>,
    value: Mutex<Option<Value>>,
}

fn parts(start: Start) -> Parts {
    let released = Arc::new(AtomicU64::new(0));
    let count = Arc::clone(&released);
    let on_last = Arc::new(move || {
        count.fetch_add(1, SeqCst);
    });
    let mut gate = Gate::new(Value::default(), 2, 2, start, on_last).unwrap();
    let passes = [0, 1].map(|slot| Mutex::new(Some(gate.next_pass(slot).unwrap())));
    Parts { gate: Mutex::new(Some(gate)), passes, released, value: Mutex::new(None) }
}

/// The calls of the control.
type Controls = fn(&mut Option<Gate<Value>>, &Parts);

struct Race {
    start: Start,
    reads: fn(&Pass<Value>),
    controls: Controls,
}

impl Play for Race {
    type Parts = Parts;

    fn actors(&self) -> usize {
        3
    }

    fn parts(&self) -> Parts {
        parts(self.start)
    }

    fn act(&self, parts: &Parts, actor: usize) {
        match parts.passes.get(actor) {
            Some(pass) => (self.reads)(pass.lock().unwrap().as_ref().unwrap()),
            None => (self.controls)(&mut parts.gate.lock().unwrap(), parts),
        }
    }

    /// Each kill that wasn't ended by a revival while references were held has one release, and the value is there once.
    fn end(&self, parts: Parts) {
        let released = parts.released.load(SeqCst);
        let mut gate = parts.gate.into_inner().unwrap();
        let Some(gate) = &mut gate else {
            assert!(parts.value.into_inner().unwrap().is_some());
            assert_eq!(released, 1);
            return;
        };
        for pass in parts.passes {
            gate.retire(pass.into_inner().unwrap().unwrap()).unwrap();
        }
        assert_eq!(gate.as_gate().releases(), released);
        assert!(released <= gate.as_gate().kills());
        if gate.as_gate().phase() == crate::Phase::Dead {
            assert!(gate.is_zero());
            gate.get_mut().unwrap().is_changed();
        }
    }
}

fn plays(name: &str, switches: usize, race: Race) {
    match Turns::switches(switches).play(race) {
        Ok(played) => {
            println!("orders of {name}, {switches} switches: {} orders, {} steps", played.orders, played.steps);
        }
        Err(Failed::Panicked(why, schedule)) => panic!("{name}: {why}:\n{}", schedule.join("\n")),
        Err(other) => panic!("{name}: {other:#?}"),
    }
}

fn reads(pass: &Pass<Value>) {
    if let Ok(value) = pass.try_get_live() {
        value.is_read();
    }
}

/// One change, where the gate turns out to be at zero; then it lives again.
fn changes(gate: &mut Option<Gate<Value>>, _: &Parts) {
    let gate = gate.as_mut().unwrap();
    gate.kill().unwrap();
    if let Ok(value) = gate.get_mut() {
        value.is_changed();
    }
    gate.resurrect().unwrap();
}

#[test]
fn two_read_and_the_control_changes() {
    plays("two passes beside a change of the value", 3, Race { start: Start::Slots, reads, controls: changes });
}

#[test]
fn two_read_an_atomic_gate_and_the_control_changes() {
    plays("two passes of an atomic gate beside a change", 3, Race { start: Start::Atomic, reads, controls: changes });
}

/// A try of a gate at zero, and one that clones, beside two kills.
#[test]
fn two_try_beside_two_kills() {
    fn tries(pass: &Pass<Value>) {
        if let Ok(value) = pass.try_get() {
            let another = value.try_clone().unwrap();
            drop(value);
            another.is_read();
        }
    }
    fn kills(gate: &mut Option<Gate<Value>>, parts: &Parts) {
        changes(gate, parts);
        gate.as_mut().unwrap().kill().unwrap();
    }
    plays("two passes that try beside two kills", 2, Race { start: Start::Slots, reads: tries, controls: kills });
}

/// The removal takes the value out where no reference is held; else a later one does.
#[test]
fn two_read_and_the_device_is_removed() {
    fn removes(gate: &mut Option<Gate<Value>>, parts: &Parts) {
        let mut dead = gate.take().unwrap();
        dead.kill().unwrap();
        match dead.remove() {
            Ok(mut value) => {
                value.is_changed();
                *parts.value.lock().unwrap() = Some(value);
            }
            Err(refused) => *gate = Some(refused.value),
        }
    }
    plays("two passes beside a removal", 3, Race { start: Start::Slots, reads, controls: removes });
}

/// A reference ends on another thread than its pass began on.
#[test]
fn a_reference_crosses_threads() {
    struct Crosses;
    type Crossing = (Mutex<Option<Gate<Value>>>, Mutex<Option<OwnedReference<Value>>>);
    impl Play for Crosses {
        type Parts = Crossing;

        fn actors(&self) -> usize {
            2
        }

        fn parts(&self) -> Crossing {
            let mut gate = Gate::new(Value::default(), 1, 1, Start::Slots, Arc::new(|| {})).unwrap();
            let request = gate.next_pass(0).unwrap().into_reference_live().unwrap();
            (Mutex::new(Some(gate)), Mutex::new(Some(request)))
        }

        fn act(&self, (gate, request): &Crossing, actor: usize) {
            if actor == 0 {
                let request = request.lock().unwrap().take().unwrap();
                request.is_read();
                drop(request.put());
            } else {
                let mut gate = gate.lock().unwrap();
                let gate = gate.as_mut().unwrap();
                gate.kill().unwrap();
                if let Ok(value) = gate.get_mut() {
                    value.is_changed();
                }
            }
        }

        fn end(&self, (gate, _): Crossing) {
            gate.into_inner().unwrap().unwrap().remove().unwrap();
        }
    }
    let played = Turns::switches(9).play(Crosses).unwrap();
    println!(
        "orders of a reference that crosses threads, 9 switches: {} orders, {} steps",
        played.orders, played.steps
    );
}
