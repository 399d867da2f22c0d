//! The turns themselves, on plays whose orders are counted by hand.

use orders::turns::{
    AtomicU64, Condvar, Failed, Mutex, Play, Played, Thread, Turns, block_on, current, heavy_fence, park, pause, waker,
};
use std::cell::RefCell;
use std::collections::BTreeSet;
use std::sync::Mutex as StdMutex;
use std::sync::atomic::AtomicU64 as StdAtomicU64;
use std::sync::atomic::Ordering::{Acquire, Relaxed, Release, SeqCst};
use std::task::{Context, Poll, Waker};
use std::time::Duration;

/// A play of one function for each actor, and one for the end.
struct Acts<T> {
    acts: Vec<fn(&T)>,
    end: fn(T),
}

impl<T: Default + Send + Sync + 'static> Play for Acts<T> {
    type Parts = T;

    fn actors(&self) -> usize {
        self.acts.len()
    }

    fn parts(&self) -> T {
        T::default()
    }

    fn act(&self, parts: &T, actor: usize) {
        self.acts[actor](parts);
    }

    fn end(&self, parts: T) {
        (self.end)(parts);
    }
}

fn play<T: Default + Send + Sync + 'static>(switches: usize, acts: &[fn(&T)]) -> Result<Played, Failed> {
    Turns::switches(switches).play(Acts { acts: acts.to_vec(), end: drop })
}

fn adds_by_two_steps(sum: &AtomicU64) {
    let seen = sum.load(SeqCst);
    sum.store(seen + 1, SeqCst);
}

fn adds_by_one_step(sum: &AtomicU64) {
    sum.fetch_add(1, SeqCst);
}

/// Two and two steps have 6 orders, and with no switch but at an end 2; three actors of a step each have 6.
#[test]
fn orders_are_counted() {
    let orders = |switches, acts: &[fn(&AtomicU64)]| play(switches, acts).unwrap().orders;
    assert_eq!(orders(9, &[adds_by_two_steps, adds_by_two_steps]), 6);
    assert_eq!(orders(0, &[adds_by_two_steps, adds_by_two_steps]), 2);
    assert_eq!(orders(1, &[adds_by_two_steps, adds_by_two_steps]), 4);
    assert_eq!(orders(9, &[adds_by_one_step, adds_by_one_step]), 2);
    assert_eq!(orders(9, &[adds_by_one_step, adds_by_one_step, adds_by_one_step]), 6);
    // Four and four steps: 8 over 4.
    let four: fn(&AtomicU64) = |sum| (0..4).for_each(|_| adds_by_one_step(sum));
    assert_eq!(play(99, &[four, four]).unwrap(), Played { orders: 70, steps: 70 * 8 });
}

#[test]
fn a_lost_addition_is_seen() {
    static SUMS: StdMutex<BTreeSet<u64>> = StdMutex::new(BTreeSet::new());
    let end = |sum: AtomicU64| SUMS.lock().unwrap().extend([sum.load(SeqCst)]);
    Turns::switches(1).play(Acts { acts: vec![adds_by_two_steps, adds_by_two_steps], end }).unwrap();
    assert_eq!(SUMS.lock().unwrap().iter().copied().collect::<Vec<_>>(), [1, 2]);
    let end = |sum: AtomicU64| assert_eq!(sum.load(SeqCst), 2, "an addition is lost");
    let failed = Turns::switches(1).play(Acts { acts: vec![adds_by_two_steps, adds_by_two_steps], end });
    assert!(matches!(failed, Err(Failed::Panicked(why, steps)) if why.contains("is lost") && steps.len() == 4));
}

/// A lock keeps two additions apart, and two locks that are taken in turn and in contrary orders stop both.
#[test]
fn a_deadlock_is_seen() {
    type Locks = [Mutex<u64>; 2];
    fn adds(locks: &Locks) {
        let mut sum = locks[0].lock().unwrap();
        let seen = *sum;
        pause();
        *sum = seen + 1;
    }
    let end = |[sum, _]: Locks| assert_eq!(sum.into_inner().unwrap(), 3);
    Turns::switches(9).play(Acts { acts: vec![adds, adds, adds], end }).unwrap();
    let takes: [fn(&Locks); 2] = [
        |locks| drop((locks[0].lock().unwrap(), locks[1].lock().unwrap())),
        |locks| drop((locks[1].lock().unwrap(), locks[0].lock().unwrap())),
    ];
    play(0, &takes).unwrap();
    let failed = play(1, &takes);
    assert!(matches!(&failed, Err(Failed::Stuck(steps)) if steps.len() == 2), "{failed:?}");
    let tries: fn(&Locks) = |locks| {
        if let Ok(_one) = locks[1].try_lock() {
            drop(locks[0].try_lock());
        }
    };
    play(9, &[takes[0], tries]).unwrap();
}

#[derive(Default)]
struct Flag {
    is_set: Mutex<bool>,
    set: Condvar,
}

fn waits(flag: &Flag) {
    let mut is_set = flag.is_set.lock().unwrap();
    while !*is_set {
        is_set = flag.set.wait(is_set).unwrap();
    }
}

fn waits_unlooking(flag: &Flag) {
    let is_set = *flag.is_set.lock().unwrap();
    if !is_set {
        drop(flag.set.wait(flag.is_set.lock().unwrap()));
    }
}

fn sets_for_one(flag: &Flag) {
    *flag.is_set.lock().unwrap() = true;
    flag.set.notify_one();
}

fn sets_for_all(flag: &Flag) {
    *flag.is_set.lock().unwrap() = true;
    flag.set.notify_all();
}

#[test]
fn a_lost_wake_is_seen() {
    play(9, &[waits, sets_for_one]).unwrap();
    play(9, &[waits, waits, sets_for_all]).unwrap();
    assert!(matches!(play(9, &[waits_unlooking, sets_for_one]), Err(Failed::Stuck(_))));
    assert!(matches!(play(9, &[waits, waits, sets_for_one]), Err(Failed::Stuck(_))));
}

/// A wait with a deadline ends with no notification, and by one.
#[test]
fn a_deadline_passes_or_does_not() {
    static LATE: StdMutex<BTreeSet<bool>> = StdMutex::new(BTreeSet::new());
    fn waits_a_while(flag: &Flag) {
        let (is_set, late) = flag.set.wait_timeout(flag.is_set.lock().unwrap(), Duration::MAX).unwrap();
        assert!(*is_set || late.timed_out());
        LATE.lock().unwrap().insert(late.timed_out());
    }
    play(9, &[waits_a_while, sets_for_one]).unwrap();
    assert_eq!(LATE.lock().unwrap().len(), 2);
    play(0, &[waits_a_while]).unwrap();
}

/// A park ends by an unpark before it or after it, and by each but once.
#[test]
fn a_park_ends_by_an_unpark() {
    #[derive(Default)]
    struct Parked(StdMutex<Option<Thread>>, AtomicU64);
    fn parks(parked: &Parked) {
        *parked.0.lock().unwrap() = Some(current());
        parked.1.store(1, SeqCst);
        park();
    }
    fn unparks(parked: &Parked) {
        parked.1.load(SeqCst);
        if let Some(thread) = *parked.0.lock().unwrap() {
            thread.unpark();
        }
    }
    fn parks_twice(parked: &Parked) {
        current().unpark();
        current().unpark();
        parks(parked);
        park();
    }
    assert!(matches!(play(9, &[parks, unparks]), Err(Failed::Stuck(_))), "it looks too early");
    assert!(matches!(play(0, &[parks_twice]), Err(Failed::Stuck(_))), "two unparks are one");
}

#[test]
fn a_future_is_woken() {
    #[derive(Default)]
    struct Noted(AtomicU64, StdMutex<Option<Waker>>);
    fn awaits(noted: &Noted) {
        block_on(std::future::poll_fn(|context: &mut Context<'_>| {
            *noted.1.lock().unwrap() = Some(context.waker().clone());
            if noted.0.load(SeqCst) == 1 { Poll::Ready(()) } else { Poll::Pending }
        }));
    }
    fn wakes(noted: &Noted) {
        noted.0.store(1, SeqCst);
        let noted = noted.1.lock().unwrap().take();
        noted.unwrap_or_else(waker).wake();
    }
    play(9, &[awaits, wakes]).unwrap();
}

#[test]
fn panics_and_loops_are_told() {
    let failed = play(0, &[|_: &AtomicU64| panic!("as it should")]);
    assert!(matches!(failed, Err(Failed::Panicked(why, _)) if why == "as it should"));
    let spins: fn(&AtomicU64) = |sum| while sum.load(SeqCst) == 0 {};
    assert!(matches!(play(0, &[spins, adds_by_one_step]), Err(Failed::Endless(_))));
}

/// Two words, and what each of two actors finds.
#[derive(Default)]
struct Words {
    x: AtomicU64,
    y: AtomicU64,
    found: [StdAtomicU64; 2],
}

impl Words {
    fn finds(&self, actor: usize, found: u64) {
        self.found[actor].store(found, SeqCst);
    }
}

/// All that two actors find, in each order.
fn founds(one: fn(&Words), other: fn(&Words)) -> Vec<(u64, u64)> {
    thread_local!(static ALL: RefCell<BTreeSet<(u64, u64)>> = const { RefCell::new(BTreeSet::new()) });
    let end = |words: Words| {
        let [one, other] = words.found.map(StdAtomicU64::into_inner);
        ALL.with_borrow_mut(|all| all.insert((one, other)));
    };
    Turns::switches(9).play(Acts { acts: vec![one, other], end }).unwrap();
    ALL.take().into_iter().collect()
}

/// Each stores to a word and loads the other's. Both find nothing only if a store of each may wait.
#[test]
fn a_relaxed_store_is_seen_late() {
    let relaxed: fn(&Words) = |words| {
        words.x.store(1, Relaxed);
        words.finds(0, words.y.load(Acquire));
    };
    let release: fn(&Words) = |words| {
        words.x.store(1, Release);
        words.finds(0, words.y.load(Acquire));
    };
    let ordered: fn(&Words) = |words| {
        words.x.store(1, SeqCst);
        words.finds(0, words.y.load(Acquire));
    };
    let exchanges: fn(&Words) = |words| {
        words.x.store(1, Relaxed);
        AtomicU64::new(0).swap(1, SeqCst);
        words.finds(0, words.y.load(Acquire));
    };
    let other: fn(&Words) = |words| {
        words.y.store(1, SeqCst);
        words.finds(1, words.x.load(SeqCst));
    };
    let fenced: fn(&Words) = |words| {
        words.y.store(1, SeqCst);
        heavy_fence();
        words.finds(1, words.x.load(SeqCst));
    };
    let early: fn(&Words) = |words| {
        heavy_fence();
        words.y.store(1, SeqCst);
        words.finds(1, words.x.load(SeqCst));
    };
    let late: fn(&Words) = |words| {
        words.y.store(1, SeqCst);
        words.finds(1, words.x.load(SeqCst));
        heavy_fence();
    };
    let all = [(0, 0), (0, 1), (1, 0), (1, 1)];
    for by in [relaxed, release] {
        assert_eq!(founds(by, other), all);
        assert_eq!(founds(by, fenced), all[1..], "the heavy fence orders both");
        assert_eq!(founds(by, early), all, "a heavy fence before the store orders nothing");
        assert_eq!(founds(by, late), all, "nor does one after the load");
    }
    assert_eq!(founds(ordered, other), all[1..]);
    assert_eq!(founds(exchanges, other), all[1..], "an exchange of any word is after the stores before it");
}

/// Stores to two words are seen in any order, but a release store is seen after those before it, and stores to one word in their order.
#[test]
fn a_release_store_is_seen_after_those_before_it() {
    let reads: fn(&Words) = |words| {
        words.finds(0, words.y.load(Acquire));
        words.finds(1, words.x.load(Acquire));
    };
    let relaxed: fn(&Words) = |words| {
        words.x.store(1, Relaxed);
        words.y.store(1, Relaxed);
    };
    let release: fn(&Words) = |words| {
        words.x.store(1, Relaxed);
        words.y.store(1, Release);
    };
    let one_word: fn(&Words) = |words| {
        words.x.store(1, Relaxed);
        assert_eq!(words.x.load(Relaxed), 1, "a thread finds its own store");
        words.x.store(2, Release);
    };
    let reads_twice: fn(&Words) = |words| {
        words.finds(0, words.x.load(Acquire));
        words.finds(1, words.x.load(Acquire));
    };
    assert_eq!(founds(relaxed, reads), [(0, 0), (0, 1), (1, 0), (1, 1)]);
    assert_eq!(founds(release, reads), [(0, 0), (0, 1), (1, 1)]);
    assert_eq!(founds(one_word, reads_twice), [(0, 0), (0, 1), (0, 2), (1, 1), (1, 2), (2, 2)]);
}

/// What was stored before a lock is let go is there for its next holder, and all stores are there at the end.
#[test]
fn a_lock_empties_the_buffer() {
    #[derive(Default)]
    struct Guarded(Mutex<()>, AtomicU64);
    let adds: fn(&Guarded) = |guarded| {
        let _held = guarded.0.lock().unwrap();
        guarded.1.store(guarded.1.load(Relaxed) + 1, Relaxed);
    };
    let end = |guarded: Guarded| assert_eq!(guarded.1.load(Relaxed), 3);
    Turns::switches(9).play(Acts { acts: vec![adds, adds, adds], end }).unwrap();
}

/// Actors that take random steps on two words and a lock, and note what they find.
struct Random {
    steps: Vec<Vec<u64>>,
}

#[derive(Default)]
struct Found {
    words: [AtomicU64; 2],
    lock: Mutex<u64>,
    noted: StdMutex<Vec<(usize, u64)>>,
}

impl Found {
    fn step(&self, step: u64) -> u64 {
        let word = &self.words[usize::from(step % 2 == 1)];
        match step / 2 % 8 {
            0 | 1 => word.store(step, Relaxed),
            2 => word.store(step, Release),
            3 => word.store(step, SeqCst),
            4 => return word.fetch_add(step, SeqCst),
            5 => heavy_fence(),
            6 => {
                let mut sum = self.lock.lock().unwrap();
                *sum = *sum * 10 + step;
                return *sum;
            }
            _ => return word.load(Acquire),
        }
        0
    }
}

/// What the actors find, and what the words are in the end.
type Outcome = (Vec<(usize, u64)>, [u64; 2]);

thread_local!(static OUTCOMES: RefCell<BTreeSet<Outcome>> = const { RefCell::new(BTreeSet::new()) });

impl Play for Random {
    type Parts = Found;

    fn actors(&self) -> usize {
        self.steps.len()
    }

    fn parts(&self) -> Found {
        Found::default()
    }

    fn act(&self, parts: &Found, actor: usize) {
        for step in &self.steps[actor] {
            let found = parts.step(*step);
            parts.noted.lock().unwrap().push((actor, found));
        }
    }

    fn end(&self, parts: Found) {
        let mut found = parts.noted.into_inner().unwrap();
        found.sort_by_key(|it| it.0);
        let words = parts.words.map(|word| word.load(SeqCst));
        OUTCOMES.with_borrow_mut(|all| all.insert((found, words)));
    }
}

/// All outcomes are among those of the orders that aren't skipped, with each number of switches.
#[test]
fn equal_orders_are_skipped_and_no_others() {
    let mut random = 1_u64;
    let (mut all, mut fewer) = (0, 0);
    for round in 0..16 {
        let mut step = |actor: u64| {
            random = random.wrapping_mul(6_364_136_223_846_793_005).wrapping_add(actor * 2 + 1);
            // No word has relaxed or release stores of two actors.
            match (random >> 33) % 16 {
                step if step / 2 < 3 && actor == 2 => step + 8,
                step if step / 2 < 3 => step / 2 * 2 + actor,
                step => step,
            }
        };
        let steps: Vec<Vec<u64>> = (0..2 + round % 2).map(|actor| (0..4).map(|_| step(actor)).collect()).collect();
        for switches in 0..4 {
            let turns = Turns::switches(switches);
            all += turns.play(Random { steps: steps.clone() }).unwrap().orders;
            let outcomes = OUTCOMES.take();
            fewer += turns.skip_equal().play(Random { steps: steps.clone() }).unwrap().orders;
            assert_eq!(OUTCOMES.take(), outcomes, "{steps:?} with {switches} switches");
        }
    }
    assert!(fewer * 2 < all, "{fewer} of {all} orders are gone through");
}
