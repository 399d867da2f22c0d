//! Times rounds of the gate and of the queue and changes of the queue's limits from Rust, beside other guards of the same
//! limits. `speed THREADS ROUNDS CHANGES` prints the lines that c/tests/speed.c and c/tests/queue/speed.c print:
//! `gate,FORM,THREADS,NANOSECONDS` and `queue,FORM,THREADS,NANOSECONDS` for a round by the clock, and
//! `change,FORM,THREADS,MEDIAN,NINETY_NINTH,NANOSECONDS` for the microseconds of a change under load, with a pause of 100
//! microseconds before each, and the nanoseconds of a round meanwhile.

mod timing;

use freeze_queue::{Limits, Queue, Tag};
use percpu_gate::{Gate, Pass, Start};
use std::env;
use std::error::Error;
use std::hint::black_box;
use std::process::ExitCode;
use std::sync::atomic::{AtomicBool, AtomicU64, Ordering};
use std::sync::{Arc, RwLock};
use std::thread;
use std::time::{Duration, Instant};
use timing::{at_once, go_round};

const LIMITS: Limits = Limits::of_hardware(64).with_max(32).with_chunk(128).with_physical(8);
const BATCH: u32 = 1_024;
const PAUSE: Duration = Duration::from_micros(100);
const USAGE: &str = "usage: speed THREADS ROUNDS CHANGES, up to 63 threads";

/// The words of the program.
#[derive(Clone, Copy)]
struct Words {
    threads: u32,
    rounds: u32,
    changes: u32,
}

impl Words {
    fn of(mut given: impl Iterator<Item = String>) -> Option<Self> {
        let mut next = |most: u32| given.next()?.parse().ok().filter(|number| (1..=most).contains(number));
        let words = Words { threads: next(63)?, rounds: next(1_000_000_000)?, changes: next(1_000_000)? };
        given.next().is_none().then_some(words)
    }
}

/// Times so many rounds on each thread, and prints the line.
fn time_rounds<T: Send>(what: &str, form: &str, words: Words, of: &mut [T], go: impl Fn(&mut T, u32) + Sync) {
    let took = at_once(of, |mine| go(mine, words.rounds), || ());
    println!("{what},{form},{},{:.2}", words.threads, took / f64::from(words.rounds));
}

/// Times rounds of the limits' readers and then changes during such rounds, and prints both lines.
#[expect(clippy::cast_precision_loss, reason = "they are rounds and nanoseconds of a run")]
fn time_changes<T: Send>(
    form: &str,
    words: Words,
    of: &mut [T],
    go: impl Fn(&mut T, u32) + Sync,
    change: impl Fn(Limits),
) {
    time_rounds("queue", form, words, of, &go);
    let (is_over, done) = (AtomicBool::new(false), AtomicU64::new(0));
    let mut taken = Vec::new();
    let go_on = |mine: &mut T| {
        let mut count = 0;
        // At least once: the changes may be over before this thread runs.
        loop {
            go(mine, BATCH);
            count += u64::from(BATCH);
            if is_over.load(Ordering::SeqCst) {
                break;
            }
        }
        done.fetch_add(count, Ordering::SeqCst);
    };
    let change_all = || {
        for number in 0..words.changes {
            thread::sleep(PAUSE);
            let limits = LIMITS.with_max(16 + number % 2 * 16);
            let began = Instant::now();
            change(limits);
            taken.push(began.elapsed().as_secs_f64() * 1e6);
        }
        is_over.store(true, Ordering::SeqCst);
    };
    let took = at_once(of, go_on, change_all);
    taken.sort_by(f64::total_cmp);
    let (median, late) = (taken[taken.len() / 2], taken[taken.len() - 1 - taken.len() / 100]);
    let round = took * f64::from(words.threads) / done.into_inner() as f64;
    println!("change,{form},{},{median:.2},{late:.2},{round:.2}", words.threads);
}

/// Such rounds, one after another.
fn each<T>(round: impl Fn(&mut T) -> u32) -> impl Fn(&mut T, u32) {
    move |mine, count| go_round(mine, count, &round)
}

fn sum_of(limits: &Limits) -> u32 {
    limits.max + limits.chunk + limits.physical
}

fn time_gate(words: Words) -> Result<(), Box<dyn Error>> {
    let mut gate = Gate::new(words.threads, words.threads, Start::Slots, [0; 8], Arc::new(|| {}))?;
    let mut passes: Vec<Pass> = (0..words.threads).map(|slot| gate.next_pass(slot)).collect::<Result<_, _>>()?;
    let tries = |pass: &mut Pass| {
        drop(pass.try_get_live().expect("the gate is live"));
        0
    };
    time_rounds("gate", "gate from Rust", words, &mut passes, each(tries));
    let shared = Arc::new(0_u32);
    let mut clones = vec![shared; words.threads as usize];
    let copies = |shared: &mut Arc<u32>| *black_box(Arc::clone(shared));
    time_rounds("gate", "an Arc cloned and dropped", words, &mut clones, each(copies));
    Ok(())
}

fn time_queue(words: Words) -> Result<(), Box<dyn Error>> {
    let queue = Queue::builder(LIMITS).slots(words.threads).tags(words.threads).build()?;
    let mut tags: Vec<Tag> = (0..words.threads).map(|_| queue.tag()).collect::<Result<_, _>>()?;
    let change = |limits| queue.freeze().expect("the queue is there").set(limits).expect("these limits are allowed");
    let enters = |tag: &mut Tag| sum_of(queue.enter(tag).expect("the queue is there").limits());
    time_changes("queue from Rust", words, &mut tags, each(enters), change);
    Ok(())
}

/// Others' locks and pointers, from Debian's packages.
#[cfg(feature = "others")]
fn time_others(words: Words) {
    use arc_swap::ArcSwap;
    use crossbeam_utils::sync::ShardedLock;
    let lock = ShardedLock::new(LIMITS);
    let mut readers = vec![&lock; words.threads as usize];
    let reads = |lock: &mut &ShardedLock<Limits>| sum_of(&lock.read().expect("nobody panics"));
    let change = |limits| *lock.write().expect("nobody panics") = limits;
    time_changes("ShardedLock of crossbeam", words, &mut readers, each(reads), change);
    let lock = parking_lot::RwLock::new(LIMITS);
    let mut readers = vec![&lock; words.threads as usize];
    let reads = |lock: &mut &parking_lot::RwLock<Limits>| sum_of(&lock.read());
    time_changes("RwLock of parking_lot", words, &mut readers, each(reads), |limits| *lock.write() = limits);
    let shared = ArcSwap::from_pointee(LIMITS);
    let mut readers = vec![&shared; words.threads as usize];
    let reads = |shared: &mut &ArcSwap<Limits>| sum_of(&shared.load());
    time_changes("arc-swap", words, &mut readers, each(reads), |limits| shared.store(Arc::new(limits)));
}

#[cfg(not(feature = "others"))]
const fn time_others(_words: Words) {}

fn time_locks(words: Words) {
    let lock = RwLock::new(LIMITS);
    let mut readers = vec![&lock; words.threads as usize];
    let reads = |lock: &mut &RwLock<Limits>| sum_of(&lock.read().expect("nobody panics"));
    let change = |limits| *lock.write().expect("nobody panics") = limits;
    time_changes("RwLock of std", words, &mut readers, each(reads), change);
    time_others(words);
    let shared = Arc::new(LIMITS);
    let mut clones = vec![shared; words.threads as usize];
    let copies = |shared: &mut Arc<Limits>| {
        let mine = black_box(Arc::clone(shared));
        sum_of(&mine)
    };
    time_rounds("queue", "an Arc cloned and dropped", words, &mut clones, each(copies));
}

fn main() -> Result<ExitCode, Box<dyn Error>> {
    let Some(words) = Words::of(env::args().skip(1)) else {
        eprintln!("{USAGE}");
        return Ok(ExitCode::FAILURE);
    };
    time_gate(words)?;
    time_queue(words)?;
    time_locks(words);
    Ok(ExitCode::SUCCESS)
}
