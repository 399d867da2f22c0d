//! Times a round of the gate and of the queue by the erased modules and by the public crates, beside their bare steps: what the steps
//! on shared memory take alone. Then a request in each of its forms. `bare THREADS ROUNDS` prints the nanoseconds of a round by the
//! clock: `WHAT,FORM,THREADS,NANOSECONDS`.

mod timing;

use freeze_queue::erased::percpu_gate as gate;
use freeze_queue::erased::queue_core as queue;
use freeze_queue::{Limits, Queue, Tag};
use std::env;
use std::error::Error;
use std::pin::pin;
use std::process::ExitCode;
use std::sync::atomic::{AtomicU64, Ordering::SeqCst};
use std::sync::{Arc, Mutex};
use std::task::{Context, Poll, Waker};
use timing::{at_once, go_round};

const HARDWARE: u32 = 64;

/// A word that one thread writes, alone on its 128 bytes.
#[repr(align(128))]
struct OwnWord(AtomicU64);

/// The place of a tag, alone on its 128 bytes.
#[repr(align(128))]
struct OwnTag(Option<Tag>);

/// A look and an exchange, as the gate counts on a slot.
fn step(word: &OwnWord, more: u64) {
    let seen = word.0.load(SeqCst);
    let _ = word.0.compare_exchange(seen, seen.wrapping_add(more), SeqCst, SeqCst);
}

/// Rounds on threads that have one of `of` each.
struct Rounds {
    what: &'static str,
    threads: u32,
    count: u32,
}

impl Rounds {
    fn time<T: Send>(&self, form: &str, of: impl IntoIterator<Item = T>, round: impl Fn(&mut T) -> u32 + Sync) {
        let mut of: Vec<T> = of.into_iter().collect();
        let took = at_once(&mut of, |mine| go_round(mine, self.count, &round), || ());
        println!("{},{form},{},{:.2}", self.what, self.threads, took / f64::from(self.count));
    }
}

fn own_words(threads: u32) -> Vec<OwnWord> {
    (0..threads).map(|_| OwnWord(AtomicU64::new(0))).collect()
}

fn time_gate(threads: u32, count: u32) -> Result<(), Box<dyn Error>> {
    let rounds = Rounds { what: "gate", threads, count };
    rounds.time("bare steps", own_words(threads), |word| {
        step(word, 1);
        step(word, u64::MAX);
        0
    });
    let (erased, _control, passes) =
        gate::Gate::<0>::new(threads, threads, gate::Start::Slots, []).map_err(|_| "no memory")?;
    rounds.time("erased module", (0..).zip(passes), |(slot, pass)| {
        assert_eq!(pass.try_get_live(&erased, *slot), gate::Tried::Given);
        u32::from(pass.put(&erased, *slot, 1) == gate::Put::Last)
    });
    let mut gate = percpu_gate::Gate::new(threads, threads, percpu_gate::Start::Slots, [0; 8], Arc::new(|| {}))?;
    let passes: Vec<_> = (0..threads).map(|slot| gate.next_pass(slot)).collect::<Result<_, _>>()?;
    rounds.time("public crate", passes, |pass| {
        drop(pass.try_get_live().expect("the gate is live"));
        0
    });
    Ok(())
}

fn time_queue(threads: u32, count: u32) -> Result<(), Box<dyn Error>> {
    let rounds = Rounds { what: "queue", threads, count };
    let words = [1, 2, 3].map(|limit| OwnWord(AtomicU64::new(limit)));
    rounds.time("bare steps", own_words(threads), |word| {
        step(word, 1);
        let sum = words.iter().fold(0_u64, |sum, limit| sum.wrapping_add(limit.0.load(SeqCst)));
        step(word, u64::MAX);
        sum as u32
    });
    let limits = queue::Limits::start(HARDWARE).map_err(|_| "no such limits")?;
    let (erased, _freezer, tags) = queue::BlockQueue::new(limits, threads, threads).map_err(|_| "no memory")?;
    rounds.time("erased module", (0..).zip(tags), |(slot, tag)| {
        assert_eq!(erased.try_enter(tag, *slot), queue::Entry::Entered);
        let limits = erased.limits(tag);
        let last = u32::from(erased.leave(tag, *slot) == queue::Put::Last);
        limits.max() + limits.chunk() + limits.physical() + last
    });
    let public = Queue::builder(Limits::of_hardware(HARDWARE)).slots(threads).tags(threads).build()?;
    rounds.time("public crate", tags_of(&public, threads)?, |tag| {
        sum_of(public.enter(tag).expect("it is live").limits())
    });
    Ok(())
}

fn sum_of(limits: &Limits) -> u32 {
    limits.max + limits.chunk + limits.physical
}

/// A tag for each thread.
fn tags_of(queue: &Queue, threads: u32) -> Result<Vec<Tag>, Box<dyn Error>> {
    Ok((0..threads).map(|_| queue.tag()).collect::<Result<_, _>>()?)
}

/// Polls a future of a live queue, which is ready at once.
#[inline]
fn ready<F: Future>(entering: F) -> F::Output {
    match pin!(entering).poll(&mut Context::from_waker(Waker::noop())) {
        Poll::Ready(done) => done,
        Poll::Pending => panic!("the queue is live"),
    }
}

/// Requests whose tag is borrowed, goes along with the request and comes back, is any free one, or is one of a mutex.
fn time_requests(threads: u32, count: u32) -> Result<(), Box<dyn Error>> {
    let rounds = Rounds { what: "request", threads, count };
    let queue = Queue::builder(Limits::of_hardware(HARDWARE)).slots(threads).tags(4 * threads).build()?;
    rounds.time("enter and drop", tags_of(&queue, threads)?, |tag| {
        sum_of(queue.enter(tag).expect("it is live").limits())
    });
    rounds.time("enter_async and drop", tags_of(&queue, threads)?, |tag| {
        sum_of(ready(queue.enter_async(tag)).expect("it is live").limits())
    });
    let of_value = Queue::builder(Limits::of_hardware(HARDWARE)).slots(threads).tags(threads).value([1, 2, 3]).build()?;
    let tags: Vec<_> = (0..threads).map(|_| of_value.tag()).collect::<Result<_, _>>()?;
    rounds.time("enter with a value and drop", tags, |tag| {
        of_value.enter(tag).expect("it is live").iter().sum::<u32>()
    });
    let along = tags_of(&queue, threads)?.into_iter().map(|tag| OwnTag(Some(tag)));
    rounds.time("enter_owned and leave", along, |OwnTag(tag)| {
        let request = queue.enter_owned(tag.take().expect("it came back")).expect("it is live");
        let sum = sum_of(request.limits());
        *tag = Some(request.leave());
        sum
    });
    rounds.time("enter_any and drop", 0..threads, |_| sum_of(queue.enter_any().expect("it is live").limits()));
    rounds.time("enter_any_async and drop", 0..threads, |_| {
        sum_of(ready(queue.enter_any_async()).expect("it is live").limits())
    });
    let shelf = Mutex::new(tags_of(&queue, threads)?);
    rounds.time("enter_owned with a tag of a mutex", 0..threads, |_| {
        let tag = shelf.lock().expect("nobody panics").pop().expect("there is one for each thread");
        let request = queue.enter_owned(tag).expect("it is live");
        let sum = sum_of(request.limits());
        shelf.lock().expect("nobody panics").push(request.leave());
        sum
    });
    Ok(())
}

fn main() -> Result<ExitCode, Box<dyn Error>> {
    let words: Option<Vec<u32>> = env::args().skip(1).map(|word| word.parse().ok()).collect();
    let Some(&[threads @ 1..=15, count @ 1..=1_000_000_000]) = words.as_deref() else {
        eprintln!("usage: bare THREADS ROUNDS, up to 15 threads");
        return Ok(ExitCode::FAILURE);
    };
    time_gate(threads, count)?;
    time_queue(threads, count)?;
    time_requests(threads, count)?;
    Ok(ExitCode::SUCCESS)
}
