//! Tests misuse that compiles: each is refused by an error, or does what its documentation says. (misuse.md
//! has misuse that doesn't compile.) A result that the types exclude would panic as a bug of the crate, and fail the test.
use percpu_gate::{
    ExitError, Gate, GetError, KillError, Killed, OnLast, Pass, Phase, RetireError, Start, TryGetError, Word,
};
use std::cell::RefCell;
use std::mem::{self, ManuallyDrop};
use std::panic::{AssertUnwindSafe, catch_unwind};
use std::rc::Rc;
use std::sync::atomic::{AtomicU64, Ordering};
use std::sync::{Arc, Mutex, mpsc};
use std::thread;

fn counted() -> (OnLast, Arc<AtomicU64>) {
    let released = Arc::new(AtomicU64::new(0));
    let count = Arc::clone(&released);
    let on_last: OnLast = Arc::new(move || {
        count.fetch_add(1, Ordering::SeqCst);
    });
    (on_last, released)
}

fn gate(passes: u32) -> (Gate, Arc<AtomicU64>) {
    let (on_last, released) = counted();
    (Gate::new(2, passes, Start::Slots, [0; 8], on_last).unwrap(), released)
}

fn panics<T>(call: impl FnOnce() -> T) -> bool {
    catch_unwind(AssertUnwindSafe(call)).is_err()
}

/// A leaked reference is held forever: no release comes, its pass can't be retired, and with the maximum held a try is refused.
#[test]
fn references_are_forgotten() {
    let (mut control, released) = gate(2);
    let pass = control.next_pass(0).unwrap();
    for _ in 0..Gate::MAX_HELD {
        mem::forget(pass.try_get_live().unwrap());
    }
    assert_eq!(pass.try_get().unwrap_err(), TryGetError::HeldFull);
    let refused = control.retire(pass).unwrap_err();
    assert_eq!(refused.reason, RetireError::StillHeld);
    let refused = refused.value.into_reference_live().unwrap_err();
    assert_eq!(refused.reason, TryGetError::HeldFull);
    assert_eq!(control.kill(), Ok(Killed::WhileHeld));
    drop(refused);
    assert!(!control.is_zero());
    assert_eq!(released.load(Ordering::SeqCst), 0);
    assert_eq!(control.exit().unwrap_err().reason, ExitError::PassesOut);
}

/// A leaked owned reference leaks its pass.
#[test]
fn an_owned_reference_is_forgotten() {
    let (mut control, released) = gate(1);
    mem::forget(control.next_pass(0).unwrap().into_reference_live().unwrap());
    assert_eq!(control.kill(), Ok(Killed::WhileHeld));
    let refused = control.exit().unwrap_err();
    drop(refused);
    assert_eq!(released.load(Ordering::SeqCst), 0);
}

/// Swapped passes of two gates still count for their own gates.
#[test]
fn passes_of_two_gates_are_swapped() {
    let ((mut here, here_told), (mut there, there_told)) = (gate(1), gate(1));
    let (mut one, mut other) = (here.next_pass(0).unwrap(), there.next_pass(1).unwrap());
    mem::swap(&mut one, &mut other);
    assert_eq!((one.gate_id(), other.gate_id()), (there.id(), here.id()));
    let held = other.try_get_live().unwrap();
    assert_eq!(there.kill(), Ok(Killed::AtZero));
    assert_eq!(here.kill(), Ok(Killed::WhileHeld));
    drop(held);
    assert_eq!((here_told.load(Ordering::SeqCst), there_told.load(Ordering::SeqCst)), (1, 1));
    let refused = here.retire(one).unwrap_err();
    assert_eq!(refused.reason, RetireError::OtherGate);
    there.retire(refused.value).unwrap();
    here.retire(other).unwrap();
}

/// Controls can be swapped, even while references are held; only the right one can retire a pass.
#[test]
fn controls_are_swapped() {
    let ((mut here, _), (mut there, _)) = (gate(1), gate(1));
    let pass = here.next_pass(0).unwrap();
    let held = pass.try_get_live().unwrap();
    mem::swap(&mut here, &mut there);
    assert_eq!(here.kill(), Ok(Killed::AtZero));
    assert_eq!(there.kill(), Ok(Killed::WhileHeld));
    drop(held);
    assert!(there.is_zero());
    there.retire(here.retire(pass).unwrap_err().value).unwrap();
}

/// If the control is dropped first, passes still count, and the put of the last reference still calls `on_last`.
#[test]
fn the_control_is_dropped_first() {
    let (mut control, released) = gate(2);
    let (pass, other) = (control.next_pass(0).unwrap(), control.next_pass(1).unwrap());
    let held = pass.try_get_live().unwrap();
    control.kill().unwrap();
    drop(control);
    assert_eq!(other.try_get_live().unwrap_err(), TryGetError::NotGiven);
    let more = other.try_get().unwrap();
    drop(held);
    drop(more);
    assert_eq!(released.load(Ordering::SeqCst), 1);
    assert!(pass.is_zero());
    let (mut stranger, _) = gate(1);
    assert_eq!(stranger.retire(pass).unwrap_err().reason, RetireError::OtherGate);
}

/// A dropped pass is out forever; its place isn't given out again.
#[test]
fn a_pass_is_dropped() {
    let (mut control, _) = gate(1);
    drop(control.next_pass(0).unwrap());
    assert!(control.next_pass(0).is_err());
    let refused = control.exit().unwrap_err();
    assert_eq!(refused.reason, ExitError::PassesOut);
}

/// If `on_last` panics, in a drop or in a kill, it was called once, and the gate goes on.
#[test]
fn on_last_panics() {
    let released = Arc::new(AtomicU64::new(0));
    let count = Arc::clone(&released);
    let on_last: OnLast = Arc::new(move || {
        count.fetch_add(1, Ordering::SeqCst);
        panic!("as the test wants");
    });
    let mut control = Gate::new(2, 1, Start::Slots, [0; 8], on_last).unwrap();
    let pass = control.next_pass(0).unwrap();
    let held = pass.try_get_live().unwrap();
    control.kill().unwrap();
    assert!(panics(|| drop(held)));
    assert_eq!((released.load(Ordering::SeqCst), control.is_zero()), (1, true));
    control.reinit().unwrap();
    assert!(panics(|| control.kill()));
    assert_eq!((released.load(Ordering::SeqCst), control.phase()), (2, Phase::Dead));
    assert_eq!(control.kill(), Err(KillError::AlreadyDead));
    control.reinit().unwrap();
    let request = pass.into_reference_live().unwrap();
    control.kill().unwrap();
    assert!(panics(|| drop(request.put()))); // and so the pass is dropped
    assert_eq!(released.load(Ordering::SeqCst), 3);
    control.resurrect().unwrap();
    assert!(panics(|| control.kill_and_confirm(|_| ())));
    assert_eq!((released.load(Ordering::SeqCst), control.kills()), (4, 4));
    assert_eq!(control.exit().unwrap_err().reason, ExitError::PassesOut);
}

/// If the function called at the confirmation panics, the kill is still completed, and `on_last` is called.
#[test]
fn confirm_panics() {
    let (mut control, released) = gate(1);
    let pass = control.next_pass(0).unwrap();
    assert!(panics(|| control.kill_and_confirm(|_| panic!("as the test wants"))));
    assert_eq!((control.phase(), control.is_zero(), released.load(Ordering::SeqCst)), (Phase::Dead, true, 1));
    control.reinit().unwrap();
    let held = pass.try_get_live().unwrap();
    assert!(panics(|| control.kill_and_confirm(|_| panic!("as the test wants"))));
    drop(held);
    assert_eq!((control.kills(), released.load(Ordering::SeqCst)), (2, 2));
    control.reinit().unwrap();
}

/// A thread that panics while it holds a reference puts it while unwinding.
#[test]
fn a_thread_panics_under_its_reference() {
    let (mut control, released) = gate(1);
    let pass = control.next_pass(0).unwrap();
    let done = thread::spawn(move || {
        let _held = pass.try_get_live().unwrap();
        panic!("as the test wants");
    });
    assert!(done.join().is_err());
    assert_eq!(control.kill(), Ok(Killed::AtZero));
    assert_eq!(released.load(Ordering::SeqCst), 1);
}

thread_local! {
    static SHARED: RefCell<Vec<Rc<Pass>>> = const { RefCell::new(Vec::new()) };
}

/// `on_last` may use the pass whose put called it, since the erased call is over by then.
#[test]
fn on_last_comes_back_to_the_pass() {
    let seen = Arc::new(AtomicU64::new(0));
    let count = Arc::clone(&seen);
    let on_last: OnLast = Arc::new(move || {
        let pass = SHARED.with_borrow(|shared| Rc::clone(&shared[0]));
        assert!(pass.is_zero());
        assert_eq!(pass.try_get().unwrap_err(), TryGetError::NotGiven);
        count.fetch_add(1, Ordering::SeqCst);
    });
    let mut control = Gate::new(1, 1, Start::Slots, [0; 8], on_last).unwrap();
    let pass = Rc::new(control.next_pass(0).unwrap());
    SHARED.with_borrow_mut(|shared| shared.push(Rc::clone(&pass)));
    let held = pass.try_get_live().unwrap();
    control.kill().unwrap();
    drop(held);
    assert_eq!(seen.load(Ordering::SeqCst), 1);
}

/// `on_last` revives the gate under a lock, on another thread than the kill's, and kills it again; it is then called again.
#[test]
fn on_last_has_the_control() {
    let shared: Arc<Mutex<Option<Gate>>> = Arc::new(Mutex::new(None));
    let released = Arc::new(AtomicU64::new(0));
    let (control, count) = (Arc::clone(&shared), Arc::clone(&released));
    let on_last: OnLast = Arc::new(move || {
        if count.fetch_add(1, Ordering::SeqCst) >= 2 {
            return;
        }
        if let Some(control) = control.try_lock().ok().as_mut().and_then(|control| control.as_mut()) {
            control.reinit().unwrap();
        }
    });
    let mut control = Gate::new(1, 1, Start::Slots, [0; 8], on_last).unwrap();
    let pass = control.next_pass(0).unwrap();
    for life in 1..=3 {
        let held = pass.try_get_live().unwrap();
        control.kill().unwrap();
        *shared.lock().unwrap() = Some(control);
        drop(held);
        control = shared.lock().unwrap().take().unwrap();
        assert_eq!((released.load(Ordering::SeqCst), control.phase() == Phase::Dead), (life, life == 3));
    }
}

/// The control can be dropped in `on_last`, on another thread.
#[test]
fn on_last_drops_the_control() {
    let shared: Arc<Mutex<Option<Gate>>> = Arc::new(Mutex::new(None));
    let place = Arc::clone(&shared);
    let on_last: OnLast = Arc::new(move || drop(place.lock().unwrap().take()));
    let mut control = Gate::new(1, 1, Start::Slots, [0; 8], on_last).unwrap();
    let request = control.next_pass(0).unwrap().into_reference_live().unwrap();
    control.kill().unwrap();
    *shared.lock().unwrap() = Some(control);
    let pass = thread::spawn(move || request.put()).join().unwrap();
    assert!(shared.lock().unwrap().is_none());
    assert!(pass.is_zero());
}

/// Owned references and passes can be sent through channels, and dropped on threads that never saw their gate.
#[test]
fn passes_travel() {
    let (mut control, released) = gate(2);
    let (send, receive) = mpsc::channel();
    let (back, returned) = mpsc::channel();
    let far = thread::spawn(move || {
        for request in receive {
            back.send(thread::spawn(move || percpu_gate::OwnedReference::put(request)).join().unwrap()).unwrap();
        }
    });
    for slot in 0..2 {
        send.send(control.next_pass(slot).unwrap().into_reference_live().unwrap()).unwrap();
    }
    drop(send);
    control.kill().unwrap();
    far.join().unwrap();
    for pass in returned {
        control.retire(pass).unwrap();
    }
    assert_eq!((control.exit().unwrap().releases, released.load(Ordering::SeqCst)), (1, 1));
}

/// References, clones too, can be dropped in any order. A reference that is never dropped is a leaked one.
#[test]
fn references_are_dropped_in_any_order() {
    let (mut control, released) = gate(1);
    let pass = control.next_pass(0).unwrap();
    let first = pass.try_get_live().unwrap();
    let second = first.try_clone().unwrap();
    let third = second.try_clone().unwrap();
    let kept = ManuallyDrop::new(third.try_clone().unwrap());
    control.kill().unwrap();
    pass.use_slot(1).unwrap();
    drop(first);
    drop(third);
    drop(second);
    assert!(!control.is_zero());
    assert_eq!(kept.word(Word::ALL[0]), 0);
    drop(ManuallyDrop::into_inner(kept));
    assert_eq!(released.load(Ordering::SeqCst), 1);
}

/// A reference that leaks through a cycle is held forever.
#[test]
fn a_reference_leaks_in_a_cycle() {
    struct Node(RefCell<Option<Rc<Node>>>, #[expect(dead_code, reason = "it is held")] percpu_gate::OwnedReference);
    let (mut control, released) = gate(1);
    let node = Rc::new(Node(RefCell::new(None), control.next_pass(0).unwrap().into_reference().unwrap()));
    *node.0.borrow_mut() = Some(Rc::clone(&node));
    drop(node);
    control.kill().unwrap();
    assert_eq!((control.is_zero(), released.load(Ordering::SeqCst)), (false, 0));
}

/// Cloning beyond the maximum number of references returns an ordinary error.
#[test]
fn clones_without_end() {
    let (mut control, _) = gate(1);
    let pass = control.next_pass(0).unwrap();
    let first = pass.try_get_live().unwrap();
    let mut all = Vec::new();
    let why = loop {
        match first.try_clone() {
            Ok(another) => all.push(another),
            Err(why) => break why,
        }
    };
    assert_eq!((all.len(), why), (65_534, GetError::HeldFull));
}

/// A gate can end while `on_last` of its last release is running on another thread.
#[test]
fn the_gate_ends_under_on_last() {
    let (entered, enters) = mpsc::channel();
    let (go_on, goes_on) = mpsc::channel();
    let ends = Mutex::new((entered, goes_on));
    let on_last: OnLast = Arc::new(move || {
        let ends = ends.lock().unwrap();
        ends.0.send(()).unwrap();
        ends.1.recv().unwrap();
    });
    let mut control = Gate::new(1, 1, Start::Slots, [0; 8], on_last).unwrap();
    let request = control.next_pass(0).unwrap().into_reference_live().unwrap();
    control.kill().unwrap();
    let putting = thread::spawn(move || request.put());
    enters.recv().unwrap();
    assert!(control.is_zero());
    let refused = control.exit().unwrap_err(); // its pass is on the other thread still
    drop(refused);
    go_on.send(()).unwrap();
    drop(putting.join().unwrap());
}
