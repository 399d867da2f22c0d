//! Four threads count on a gate while it is killed, revived and switched, and its setting changed. `on_last` is called as
//! often as releases are counted, and each request sees one setting. `PERCPU_GATE_ROUNDS` is the number of rounds.
use percpu_gate::{Final, Gate, Killed, OwnedReference, Pass, Phase, Revived, Start, TryGetError, Word};
use std::env;
use std::sync::atomic::{AtomicBool, AtomicU64, Ordering};
use std::sync::{Arc, Condvar, Mutex, mpsc};
use std::thread;

const THREADS: u32 = 4;

/// Two guarded words that are one setting: they are always equal.
const ONE: Word = Word::new(0).unwrap();
const OTHER: Word = Word::new(7).unwrap();

fn rounds() -> u64 {
    env::var("PERCPU_GATE_ROUNDS").ok().and_then(|text| text.parse().ok()).unwrap_or(100_000)
}

fn count(pass: &Pass, rounds: u64) {
    for round in 0..rounds {
        let given = if round % 2 == 0 { pass.try_get_live() } else { pass.try_get() };
        match given {
            Ok(reference) => {
                let setting = reference.word(ONE);
                let another = reference.try_clone().unwrap();
                drop(reference);
                pass.use_slot(u32::try_from(round % u64::from(THREADS)).unwrap()).unwrap();
                assert_eq!(another.word(OTHER), setting);
            }
            Err(why) => assert_eq!(why, TryGetError::NotGiven),
        }
    }
}

/// Runs one life after another until all threads are done. Returns the number of kills, and of those that no revival cut short.
fn live_and_die(control: &mut Gate, done: &AtomicU64) -> (u64, u64) {
    let (mut kills, mut at_zero) = (0, 0);
    while kills < 1000 || done.load(Ordering::SeqCst) < u64::from(THREADS) {
        let killed = if kills % 3 == 0 {
            control.kill_and_confirm(|front| assert_eq!(front % 2, 1)).unwrap()
        } else {
            control.kill().unwrap()
        };
        kills += 1;
        if control.is_zero() {
            control.store_word(ONE, kills).unwrap();
            control.store_word(OTHER, kills).unwrap();
        } else {
            assert_eq!(killed, Killed::WhileHeld);
        }
        if control.resurrect().unwrap() == Revived::FromZero {
            at_zero += 1;
        }
        if kills % 2 == 0 { control.switch_to_atomic() } else { control.switch_to_slots() }
    }
    (kills, at_zero)
}

#[test]
fn counts_under_kills() {
    let released = Arc::new(AtomicU64::new(0));
    let tells = Arc::clone(&released);
    let on_last = Arc::new(move || {
        tells.fetch_add(1, Ordering::SeqCst);
    });
    let mut control = Gate::new(THREADS, THREADS, Start::Slots, [0; 8], on_last).unwrap();
    let passes: Vec<Pass> = (0..THREADS).map(|slot| control.next_pass(slot).unwrap()).collect();
    let done = Arc::new(AtomicU64::new(0));
    let threads = passes.into_iter().map(|pass| {
        let done = Arc::clone(&done);
        thread::spawn(move || {
            count(&pass, rounds());
            done.fetch_add(1, Ordering::SeqCst);
            pass
        })
    });
    let threads: Vec<_> = threads.collect();
    let (kills, at_zero) = live_and_die(&mut control, &done);
    for thread in threads {
        control.retire(thread.join().unwrap()).unwrap();
    }
    assert_eq!((control.kills(), control.releases()), (kills, at_zero));
    assert_eq!(released.load(Ordering::SeqCst), at_zero);
    let Final { dead, releases, .. } = control.exit().unwrap();
    assert_eq!((dead, releases), (false, at_zero));
}

/// Counts releases, and waits for one.
#[derive(Default)]
struct Told(Mutex<u64>, Condvar);

impl Told {
    fn tell(&self) {
        *self.0.lock().unwrap() += 1;
        self.1.notify_all();
    }

    fn wait_for(&self, kills: u64) {
        drop(self.1.wait_while(self.0.lock().unwrap(), |released| *released < kills).unwrap());
    }
}

/// Takes free passes, and passes them on with a reference. A refused try frees the pass again.
fn submit(
    free: &Mutex<mpsc::Receiver<Pass>>,
    back: &mpsc::Sender<Pass>,
    sent: &mpsc::Sender<OwnedReference>,
    over: &AtomicBool,
) {
    while !over.load(Ordering::SeqCst) {
        let Ok(pass) = free.lock().unwrap().try_recv() else {
            thread::yield_now();
            continue;
        };
        match pass.into_reference_live() {
            Ok(request) => sent.send(request).unwrap(),
            Err(refused) => back.send(refused.value).unwrap(),
        }
    }
}

/// Ends requests that another thread began.
fn complete(sent: &Mutex<mpsc::Receiver<OwnedReference>>, back: &mpsc::Sender<Pass>) -> u64 {
    let mut completed = 0;
    loop {
        let next = sent.lock().unwrap().recv();
        let Ok(request) = next else { return completed };
        assert_eq!(request.word(ONE), request.word(OTHER));
        back.send(request.put()).unwrap();
        completed += 1;
    }
}

/// Changes the setting this many times, each time when all requests in flight are done.
fn change(control: &mut Gate, released: &Told, changes: u64) {
    for change in 1..=changes {
        control.kill().unwrap();
        released.wait_for(change);
        assert_eq!(control.phase(), Phase::Dead);
        control.store_word(ONE, change).unwrap();
        control.store_word(OTHER, change).unwrap();
        control.reinit().unwrap();
    }
}

#[test]
fn requests_end_on_other_threads() {
    let released = Arc::new(Told::default());
    let tells = Arc::clone(&released);
    let mut control = Gate::new(2, 8, Start::Slots, [0; 8], Arc::new(move || tells.tell())).unwrap();
    let ((back, free), (sent, begun)) = (mpsc::channel(), mpsc::channel());
    for tag in 0..8 {
        back.send(control.next_pass(tag % 2).unwrap()).unwrap();
    }
    let (free, begun, over) = (Mutex::new(free), Mutex::new(begun), AtomicBool::new(false));
    let changes = rounds() / 100;
    thread::scope(|threads| {
        let completers = [back.clone(), back.clone()].map(|back| {
            let begun = &begun;
            threads.spawn(move || complete(begun, &back))
        });
        for (back, sent) in [(back.clone(), sent.clone()), (back.clone(), sent.clone())] {
            let (free, over) = (&free, &over);
            threads.spawn(move || submit(free, &back, &sent, over));
        }
        change(&mut control, &released, changes);
        over.store(true, Ordering::SeqCst);
        drop(sent);
        for completer in completers {
            completer.join().unwrap();
        }
    });
    drop(back);
    let passes: Vec<Pass> = free.into_inner().unwrap().iter().collect();
    assert_eq!(passes.len(), 8);
    for pass in passes {
        control.retire(pass).unwrap();
    }
    let last = control.exit().unwrap();
    assert_eq!((last.kills, last.releases, last.words[0]), (changes, changes, changes));
}
