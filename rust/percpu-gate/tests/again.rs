//! Tests passes that are given out again, counts of several references, boxed errors, and releases whose `on_last` panics.
use percpu_gate::{Final, Gate, GetError, Killed, NextPassError, OnLast, Pass, Start, TryGetError};
use std::error::Error;
use std::panic::{AssertUnwindSafe, catch_unwind};
use std::sync::Arc;
use std::sync::atomic::{AtomicU64, Ordering};
use std::thread;

type Boxed = Box<dyn Error + Send + Sync>;

fn gate(passes: u32) -> (Gate, Arc<AtomicU64>) {
    let released = Arc::new(AtomicU64::new(0));
    let count = Arc::clone(&released);
    let on_last: OnLast = Arc::new(move || {
        count.fetch_add(1, Ordering::SeqCst);
    });
    (Gate::new(2, passes, Start::Slots, [0; 8], on_last).unwrap(), released)
}

/// A gate with two passes serves ten thousand threads that come and go, at most two at a time.
#[test]
fn a_retired_pass_is_given_again() {
    let (mut control, _) = gate(2);
    let mut kept = control.next_pass(0).unwrap();
    for round in 0..10_000 {
        let pass = control.next_pass(round % 2).unwrap();
        assert_eq!((pass.slot(), control.next_pass(0).unwrap_err()), (round % 2, NextPassError::NoPass));
        drop(pass.try_get_live().unwrap());
        control.retire(kept).unwrap();
        kept = pass;
    }
    control.retire(kept).unwrap();
    assert_eq!(control.exit().unwrap(), Final { dead: false, kills: 0, releases: 0, words: [0; 8] });
}

/// Each release is counted once, by the pass that made it while it was out, however often that pass is given out.
#[test]
fn a_pass_that_is_given_again_tells_its_releases_once() {
    let (mut control, released) = gate(1);
    for life in 1..=5 {
        let pass = control.next_pass(0).unwrap();
        let reference = pass.try_get_live().unwrap();
        control.kill().unwrap();
        drop(reference);
        assert_eq!(control.releases(), life - 1, "it isn't retired yet");
        control.retire(pass).unwrap();
        assert_eq!((control.releases(), released.load(Ordering::SeqCst)), (life, life));
        let quiet = control.next_pass(1).unwrap();
        control.retire(quiet).unwrap();
        assert_eq!(control.releases(), life);
        control.reinit().unwrap();
    }
    assert_eq!(control.exit().unwrap(), Final { dead: false, kills: 5, releases: 5, words: [0; 8] });
}

#[test]
fn a_pass_that_is_forgotten_or_dropped_is_not_given_again() {
    let (mut control, _) = gate(2);
    let held = control.next_pass(0).unwrap();
    std::mem::forget(held.try_get_live().unwrap());
    assert!(control.retire(held).is_err());
    drop(control.next_pass(0).unwrap());
    assert_eq!(control.next_pass(0).unwrap_err(), NextPassError::NoPass);
}

#[test]
fn several_references_in_one_step() {
    let (mut control, released) = gate(1);
    let pass = control.next_pass(0).unwrap();
    let first = pass.try_get_live().unwrap();
    let mut many = first.get_many(10).unwrap();
    let one = many.split_one().unwrap();
    let none = one.get_many(0).unwrap();
    assert_eq!((many.count(), none.count()), (9, 0));
    control.kill().unwrap();
    drop((first, none));
    many.put_many(4);
    many.put_many(0);
    assert_eq!((many.count(), control.is_zero()), (5, false));
    many.put_many(u32::MAX); // all five
    assert_eq!((many.count(), many.split_one().is_none(), control.is_zero()), (0, true, false));
    drop(many); // none is left
    assert_eq!(released.load(Ordering::SeqCst), 0);
    drop(one);
    assert_eq!((released.load(Ordering::SeqCst), control.is_zero()), (1, true));
    control.retire(pass).unwrap();
}

#[test]
fn the_most_references_by_one_step() {
    let (mut control, released) = gate(1);
    let pass = control.next_pass(0).unwrap();
    let first = pass.try_get_live().unwrap();
    for too_many in [Gate::MAX_HELD, u32::MAX] {
        assert_eq!(first.get_many(too_many).unwrap_err(), GetError::HeldFull);
    }
    let most = first.get_many(Gate::MAX_HELD - 1).unwrap();
    assert_eq!(first.get_many(1).unwrap_err(), GetError::HeldFull);
    assert_eq!((first.get_many(0).unwrap().count(), pass.try_get().unwrap_err()), (0, TryGetError::HeldFull));
    assert!(format!("{most:?}").ends_with("count: 65534 }"));
    control.kill().unwrap();
    drop(first);
    assert_eq!(released.load(Ordering::SeqCst), 0);
    drop(most);
    assert_eq!(released.load(Ordering::SeqCst), 1);
}

/// `?` converts each error, including those that hand something back, into a boxed error that can cross threads.
#[test]
fn errors_are_boxed() {
    fn retires(control: &mut Gate, pass: Pass) -> Result<(), Boxed> {
        Ok(control.retire(pass)?)
    }
    fn enters(pass: Pass) -> Result<(), Boxed> {
        drop(pass.into_reference_live()?);
        Ok(())
    }
    fn ends(control: Gate) -> Result<Final, Boxed> {
        let _made = Gate::new(1, 1, Start::Slots, [0; 8], Arc::new(|| {}))?;
        Ok(control.exit()?)
    }
    let ((mut control, _), (mut other, _)) = (gate(3), gate(1));
    let [one, two] = [control.next_pass(0).unwrap(), control.next_pass(0).unwrap()];
    let why = thread::spawn(move || retires(&mut other, one).unwrap_err()).join().unwrap();
    assert_eq!(why.to_string(), "the pass is of another gate");
    control.kill().unwrap();
    assert_eq!(*enters(two).unwrap_err().downcast::<TryGetError>().unwrap(), TryGetError::NotGiven);
    assert_eq!(ends(control).unwrap_err().to_string(), "passes aren't retired");
}

/// If `confirm` and `on_last` both panic, the first panic continues, and the kill is completed.
#[test]
fn confirm_and_on_last_panic() {
    let mut control = Gate::new(1, 1, Start::Slots, [0; 8], Arc::new(|| panic!("the second"))).unwrap();
    let killed = catch_unwind(AssertUnwindSafe(|| control.kill_and_confirm(|_| panic!("the first"))));
    assert_eq!(killed.unwrap_err().downcast_ref(), Some(&"the first"));
    assert!(control.is_zero());
    control.reinit().unwrap();
    let pass = control.next_pass(0).unwrap();
    let dropped = catch_unwind(AssertUnwindSafe(|| {
        let _reference = pass.try_get_live().unwrap();
        control.kill().unwrap();
        panic!("the first");
    }));
    assert_eq!(dropped.unwrap_err().downcast_ref(), Some(&"the first"));
    control.reinit().unwrap();
    let killed = catch_unwind(AssertUnwindSafe(|| control.kill()));
    assert_eq!(killed.unwrap_err().downcast_ref(), Some(&"the second"), "one panic alone goes on");
}

/// If `on_last` panics in `put_many`, the drop doesn't put the same references again.
#[test]
fn several_are_put_once_where_on_last_panics() {
    let mut control = Gate::new(1, 1, Start::Slots, [0; 8], Arc::new(|| panic!("powered off"))).unwrap();
    let pass = control.next_pass(0).unwrap();
    let mut many = pass.try_get_live().unwrap().get_many(3).unwrap();
    control.kill().unwrap();
    assert!(catch_unwind(AssertUnwindSafe(|| many.put_many(3))).is_err());
    assert_eq!(many.count(), 0);
    drop(many);
    control.retire(pass).unwrap();
    assert_eq!(control.exit().unwrap().releases, 1);
}

fn panics(call: impl FnOnce()) -> bool {
    catch_unwind(AssertUnwindSafe(call)).is_err()
}

/// Kills a gate and has its `on_last` called: by the drop of a reference, the drop of several, a put of the last of them, a thread that
/// unwinds, or the kill itself. Returns whether a panic went on.
fn release(way: u64, control: &mut Gate, pass: &Pass) -> bool {
    if way == 4 {
        return panics(|| _ = control.kill());
    }
    let one = pass.try_get_live().unwrap();
    let mut many = one.get_many(3).unwrap();
    assert_eq!(control.kill(), Ok(Killed::WhileHeld));
    if way == 0 {
        drop(many);
        return panics(|| drop(one));
    }
    drop(one);
    if way == 2 {
        many.put_many(2);
        return panics(|| many.put_many(1));
    }
    panics(move || {
        let _all = many;
        assert!(way == 1, "in flight");
    })
}

/// Each release is counted once, whichever call made it, and also if `on_last` panicked in that call: one of a pass when it is retired.
#[test]
fn a_release_counts_though_on_last_panics() {
    for ways in 0..5_u64.pow(3) {
        for panicking in 0..8_u64 {
            let released = Arc::new(AtomicU64::new(0));
            let count = Arc::clone(&released);
            let on_last: OnLast =
                Arc::new(move || assert!(panicking >> count.fetch_add(1, Ordering::SeqCst) & 1 == 0, "powered off"));
            let mut control = Gate::new(2, 1, Start::Slots, [0; 8], on_last).unwrap();
            for life in 0..3_u32 {
                let (way, case) = (ways / 5_u64.pow(life) % 5, format!("life {life} of {ways}, {panicking:b}"));
                let pass = control.next_pass(life % 2).unwrap();
                let is_panic = way == 3 || panicking >> life & 1 == 1;
                assert_eq!(release(way, &mut control, &pass), is_panic, "{case}");
                assert_eq!(control.releases(), u64::from(life) + u64::from(way == 4), "{case}");
                control.retire(pass).unwrap();
                let all = (control.releases(), released.load(Ordering::SeqCst));
                assert_eq!(all, (u64::from(life) + 1, u64::from(life) + 1), "{case}");
                control.reinit().unwrap();
            }
            assert_eq!(control.exit().unwrap(), Final { dead: false, kills: 3, releases: 3, words: [0; 8] });
        }
    }
}
