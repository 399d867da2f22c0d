//! Tests which push wakes whom at the queues between the threads of a run, how often a thread looks before it sleeps, and that both stay so
//! after thousands of requests. No contract says it. The queues' erased files are compiled again here, so that a thread can be held at a step.

#[allow(dead_code)]
pub mod counting;
#[allow(dead_code, unused_imports, clippy::all, clippy::pedantic)]
mod erased;
mod pushing;
#[allow(dead_code)]
pub mod ring;
#[allow(dead_code)]
#[path = "../shared/turns.rs"]
mod turns;

use crate::counting::wakes;
use crate::erased::run_queues::{Consumer, Numbered, RequestQueue, Source, SpareQueue};
use std::cell::Cell;
use std::sync::Arc;
use std::sync::atomic::{AtomicBool, AtomicU64, Ordering::SeqCst};
use std::thread::{Scope, ScopedJoinHandle, scope};
use turns::{insist, until, wait_for};

struct Request(u32);

impl Numbered for Request {
    fn number(&self) -> u32 {
        self.0
    }
}

/// A queue of requests, and what its threads did.
struct Line {
    queue: RequestQueue<Request>,
    asleep: Arc<AtomicU64>,
    drawn: AtomicU64,
    pushed: AtomicU64,
}

/// What a thread did in its draws.
#[derive(Debug, PartialEq)]
struct Done {
    looks: u64,
    wakes: u64,
}

/// When a thread is held.
#[derive(Clone, Copy, PartialEq)]
enum When {
    Never,
    /// At its look of this number.
    Look(u64),
    /// Once it was woken.
    Woken,
    /// At its first look after it was woken.
    WokenLook,
}

/// Holds threads until it is released.
#[derive(Clone)]
struct Hold {
    when: When,
    is_woken: Arc<AtomicBool>,
    held: Arc<AtomicU64>,
    released: Arc<AtomicU64>,
    /// Whether limited sleeps end after a while.
    time_passes: bool,
}

impl Hold {
    fn new(when: When) -> Hold {
        let [held, released] = [const { AtomicU64::new(0) }; 2].map(Arc::new);
        Hold { when, is_woken: Arc::default(), held, released, time_passes: false }
    }

    /// Does what is to be done once the thread was woken.
    fn woken(&self) {
        self.is_woken.store(true, SeqCst);
        if self.when == When::Woken {
            self.hold();
        }
    }

    /// Does what is to be done before the look of this number.
    fn look(&self, look: u64) {
        if self.when == When::Look(look) || self.when == When::WokenLook && self.is_woken.swap(false, SeqCst) {
            self.hold();
        }
    }

    fn hold(&self) {
        self.held.fetch_add(1, SeqCst);
        wait_for(&self.released, 1);
    }

    fn release(&self) {
        self.released.store(1, SeqCst);
    }
}

impl Line {
    fn new(room: usize, threads: u32, draws: usize) -> (Line, Source<Request>, Vec<Consumer<Request>>) {
        let (queue, mut source) = RequestQueue::new(room, threads as usize).expect("memory");
        let consumers = (0..threads).map(|_| queue.consumer(&mut source, draws).expect("memory")).collect();
        let [drawn, pushed] = [const { AtomicU64::new(0) }; 2];
        (Line { queue, asleep: Arc::default(), drawn, pushed }, source, consumers)
    }

    /// Pushes the next request. Returns how many waiters it was to wake.
    fn push(&self, source: &mut Source<Request>) -> u64 {
        wakes();
        self.queue.push(source, Request(self.pushed.fetch_add(1, SeqCst) as u32));
        wakes()
    }

    /// Wakes one more thread if there is a request. Returns how many it was to wake.
    fn wake_one_more(&self, source: &mut Source<Request>) -> u64 {
        wakes();
        self.queue.wake_one_more(source);
        wakes()
    }

    /// Wakes a thread if all sleep. Returns how many it was to wake.
    fn wake_if_all_sleep(&self) -> u64 {
        wakes();
        self.queue.wake_if_all_sleep();
        wakes()
    }

    /// Draws a request. Returns what that took.
    fn draw(&self, consumer: &mut Consumer<Request>) -> Done {
        wakes();
        ring::looks();
        insist(matches!(self.queue.draw(consumer), Ok(Some(_))), "a draw without a request");
        let done = Done { looks: ring::looks(), wakes: wakes() };
        self.drawn.fetch_add(1, SeqCst);
        done
    }

    /// Draws a request on this thread, which is held as told.
    fn draw_held(&self, consumer: &mut Consumer<Request>, hold: &Hold) -> Done {
        let (asleep, woken, looks) = (Arc::clone(&self.asleep), hold.clone(), hold.clone());
        let is_awake = Cell::new(true);
        let notes_sleep = move || {
            asleep.fetch_add(u64::from(is_awake.replace(false)), SeqCst);
        };
        counting::at_sleeps(notes_sleep, move || woken.woken());
        if hold.time_passes {
            counting::let_time_pass();
        }
        ring::before_looks(move |look| looks.look(look));
        self.draw(consumer)
    }

    /// Starts a thread that draws once, and is held as told.
    fn draws<'s>(
        &'s self,
        scope: &'s Scope<'s, '_>,
        mut consumer: Consumer<Request>,
        hold: &Hold,
    ) -> ScopedJoinHandle<'s, Done> {
        let hold = hold.clone();
        scope.spawn(move || self.draw_held(&mut consumer, &hold))
    }

    /// Starts so many threads that draw once, one after the other, and waits until all sleep.
    fn sleepers<'s>(
        &'s self,
        scope: &'s Scope<'s, '_>,
        consumers: Vec<Consumer<Request>>,
        hold: &Hold,
    ) -> Vec<ScopedJoinHandle<'s, Done>> {
        let starts = |(others, consumer): (u64, _)| {
            let thread = self.draws(scope, consumer, hold);
            wait_for(&self.asleep, others + 1);
            thread
        };
        (0..).zip(consumers).map(starts).collect()
    }
}

fn done(thread: ScopedJoinHandle<'_, Done>) -> Done {
    until(|| thread.is_finished());
    thread.join().expect("a draw that ends")
}

/// With room for four, every second push wakes a thread if all sleep. The others wake none.
#[test]
fn each_second_push_wakes_one_if_all_sleep() {
    for sleepers in [1, 2, 5, 40] {
        let (line, mut source, consumers) = Line::new(4, sleepers, 1);
        scope(|scope| {
            let threads = line.sleepers(scope, consumers, &Hold::new(When::Never));
            insist(line.push(&mut source) == 0, "a first push wakes somebody");
            insist(line.push(&mut source) == 1, "a second push wakes nobody, or two");
            wait_for(&line.drawn, 1);
            // Two of the three items that are left then are for the next two.
            (0..2).for_each(|_| insist(line.push(&mut source) == 0, "a push wakes somebody though one is up"));
            for drawn in 2..=sleepers.into() {
                insist(line.wake_if_all_sleep() == 0, "a thread is woken though one is up");
                insist(line.wake_one_more(&mut source) == 1, "nobody is woken for what is there, or two");
                wait_for(&line.drawn, drawn);
                insist(line.push(&mut source) == 0, "a push wakes somebody though one is up");
            }
            insist(
                threads.into_iter().map(done).all(|done| done.wakes == 1),
                "a draw wakes another than who waits for room",
            );
            insist(line.wake_one_more(&mut source) == 0, "somebody counts as a sleeper for ever");
        });
    }
}

/// Nobody is woken for a request where there is none.
#[test]
fn nobody_is_woken_for_nothing() {
    let (line, mut source, consumers) = Line::new(4, 2, 1);
    scope(|scope| {
        let threads = line.sleepers(scope, consumers, &Hold::new(When::Never));
        insist(line.wake_one_more(&mut source) == 0, "a thread is woken for nothing");
        for _ in 0..2 {
            line.push(&mut source);
        }
        wait_for(&line.drawn, 1);
        insist(line.wake_one_more(&mut source) == 1, "nobody is woken for a request");
        for thread in threads {
            done(thread);
        }
    });
}

/// A push wakes nobody while a thread looks, and that thread finds what was pushed.
#[test]
fn who_looks_finds_what_is_pushed() {
    for pushes in 1..=3 {
        let (line, mut source, mut consumers) = Line::new(4, 2, 1);
        let own = consumers.pop().expect("a consumer");
        scope(|scope| {
            let sleeper = line.sleepers(scope, consumers, &Hold::new(When::Never)).swap_remove(0);
            let hold = Hold::new(When::Look(5));
            let looks = line.draws(scope, own, &hold);
            wait_for(&hold.held, 1);
            (0..pushes).for_each(|_| insist(line.push(&mut source) == 0, "a push wakes a sleeper though one looks"));
            hold.release();
            insist(done(looks) == Done { looks: 5, wakes: 1 }, "who looks does something else");
            insist(pushes > 1 || line.push(&mut source) == 0, "a push wakes one though not all sleep");
            insist(line.wake_one_more(&mut source) == 1, "nobody is woken for what is left");
            // Its first look, a look of the full length, one before it sleeps, and one that finds.
            insist(done(sleeper) == Done { looks: 1 + 1_024 + 1 + 1, wakes: 1 }, "the sleeper is woken in vain");
        });
    }
}

/// One thread looks at a time. Another sleeps at once.
#[test]
fn one_looks_at_most() {
    let (line, mut source, mut consumers) = Line::new(8, 2, 1);
    let own = consumers.pop().expect("a consumer");
    scope(|scope| {
        let hold = Hold::new(When::Look(2));
        let looks = line.draws(scope, consumers.swap_remove(0), &hold);
        wait_for(&hold.held, 1);
        let sleeps = line.draws(scope, own, &Hold::new(When::Never));
        wait_for(&line.asleep, 1);
        (0..2).for_each(|_| insist(line.push(&mut source) == 0, "a push wakes a sleeper though one looks"));
        hold.release();
        insist(done(looks).looks == 2, "who looks doesn't find the item");
        insist(line.wake_one_more(&mut source) == 1, "nobody is woken for what is left");
        insist(done(sleeps).looks == 3, "the second looks longer, or is woken in vain");
    });
}

/// Nobody is woken while a thread that was woken is on its way.
#[test]
fn one_at_a_time_is_on_its_way() {
    for sleepers in 1..=6 {
        let (line, mut source, consumers) = Line::new(8, sleepers, 1);
        scope(|scope| {
            let hold = Hold::new(When::Woken);
            let threads = line.sleepers(scope, consumers, &hold);
            for _ in 0..sleepers {
                line.push(&mut source);
            }
            insist(line.wake_if_all_sleep() == u64::from(sleepers < 4), "nobody is woken, or two");
            wait_for(&hold.held, 1);
            (1..sleepers).for_each(|_| insist(line.wake_one_more(&mut source) == 0, "a second one is woken"));
            insist(line.wake_if_all_sleep() == 0, "a second one is woken, if all sleep");
            hold.release();
            for drawn in 1..=sleepers.into() {
                wait_for(&line.drawn, drawn);
                let is_last = drawn == u64::from(sleepers);
                insist(line.wake_one_more(&mut source) == u64::from(!is_last), "the next isn't woken");
            }
            insist(threads.into_iter().map(done).all(|done| done.wakes == 1), "a thread that draws wakes another");
        });
    }
}

/// Once a woken thread has come, the next is woken, although the one that came hasn't looked yet. The next finds what the first was woken
/// for, and leaves the other item to it.
#[test]
fn who_has_come_is_not_waited_for() {
    let (line, mut source, consumers) = Line::new(4, 3, 1);
    scope(|scope| {
        let holds = [When::WokenLook; 3].map(Hold::new);
        let threads: Vec<_> = (0..)
            .zip(consumers.into_iter().zip(&holds))
            .map(|(others, (consumer, hold))| {
                let thread = line.draws(scope, consumer, hold);
                wait_for(&line.asleep, others + 1);
                thread
            })
            .collect();
        for _ in 0..2 {
            line.push(&mut source);
        }
        let is_held = |hold: &Hold| hold.held.load(SeqCst) > 0;
        until(|| holds.iter().any(is_held));
        let first = holds.iter().position(is_held).expect("one that was woken");
        insist(line.wake_if_all_sleep() == 1, "nobody is woken though all sleep");
        until(|| holds.iter().filter(|hold| is_held(hold)).count() == 2);
        holds.iter().enumerate().filter(|(it, _)| *it != first).for_each(|(_, hold)| hold.release());
        wait_for(&line.drawn, 1);
        holds[first].release();
        wait_for(&line.drawn, 2);
        insist(line.push(&mut source) == 0 && line.wake_one_more(&mut source) == 1, "the last isn't woken");
        for thread in threads {
            done(thread);
        }
    });
}

/// The first that sleeps is woken last. It looks again after a while, and once it has risen the next does.
#[test]
fn a_lookout_finds_what_nobody_is_woken_for() {
    let (line, mut source, consumers) = Line::new(8, 3, 1);
    scope(|scope| {
        let first = Hold { time_passes: true, ..Hold::new(When::Never) };
        let threads = line.sleepers(scope, consumers, &first);
        for drawn in 1..=3 {
            insist(line.push(&mut source) == 0, "a push wakes somebody");
            wait_for(&line.drawn, drawn);
        }
        let mut wakes: Vec<u64> = threads.into_iter().map(|thread| done(thread).wakes).collect();
        wakes.sort_unstable();
        insist(wakes == [1, 2, 2], "a lookout that rises doesn't wake the next");
    });
}

/// All are woken at once, and each finds an item.
#[test]
fn all_are_woken_at_the_end() {
    for sleepers in [1, 2, 7] {
        let (line, mut source, consumers) = Line::new(64, sleepers, 1);
        scope(|scope| {
            let threads = line.sleepers(scope, consumers, &Hold::new(When::Never));
            (0..sleepers).for_each(|_| insist(line.push(&mut source) == 0, "a push wakes somebody"));
            line.queue.wake_all();
            for thread in threads {
                done(thread);
            }
        });
    }
}

/// A put wakes who sleeps for a spare once half of the room is filled, and somebody who puts no more before.
#[test]
fn half_of_the_spares_wake() {
    for (room, enough) in [(1, 1), (2, 1), (3, 2), (4, 2), (63, 32), (64, 32)] {
        for puts in [1, enough] {
            let (spares, mut taker) = SpareQueue::new(room).expect("memory");
            let (mut count, asleep) = (spares.put_count(), Arc::new(AtomicU64::new(0)));
            scope(|scope| {
                let (spares, notes) = (&spares, Arc::clone(&asleep));
                let takes = scope.spawn(move || {
                    let notes_sleep = move || {
                        notes.fetch_add(1, SeqCst);
                    };
                    counting::at_sleeps(notes_sleep, || {});
                    spares.take(&mut taker)
                });
                wait_for(&asleep, 1);
                wakes();
                (1..puts).for_each(|spare| spares.put(&mut count, spare));
                insist(wakes() == 0, "a put wakes too early");
                spares.put(&mut count, puts);
                let is_woken = wakes() == 1;
                insist(is_woken == (puts == enough), "a put wakes nobody, or too early");
                if !is_woken {
                    spares.wake_taker();
                    insist(wakes() == 1, "the taker isn't woken");
                }
                insist(takes.join().is_ok_and(|spare| spare == 1), "another spare is taken");
            });
        }
    }
}

/// A put wakes who sleeps for a spare, also behind more of them than any run puts back.
#[test]
fn a_put_wakes_behind_very_many() {
    let (spares, mut taker) = SpareQueue::new(2).expect("memory");
    let mut count = spares.put_count();
    for spare in 0..200_000 {
        spares.put(&mut count, spare);
        assert_eq!(spares.take(&mut taker), spare);
    }
    let asleep = Arc::new(AtomicU64::new(0));
    scope(|scope| {
        let (spares, notes) = (&spares, Arc::clone(&asleep));
        let takes = scope.spawn(move || {
            let notes_sleep = move || {
                notes.fetch_add(1, SeqCst);
            };
            counting::at_sleeps(notes_sleep, || {});
            spares.take(&mut taker)
        });
        wait_for(&asleep, 1);
        wakes();
        spares.put(&mut count, 7);
        insist(wakes() == 1, "a put wakes nobody");
        insist(takes.join().is_ok_and(|spare| spare == 7), "another spare is taken");
    });
}

/// Draws as often as there are numbers here, each once the thread sleeps, and compares its looks: the first, these many, one before it sleeps,
/// and the one that finds. With `Some` it is held at its look of this number instead, and finds what is pushed meanwhile.
fn looks_are(plan: &[(u64, Option<u64>)]) {
    let (line, mut source, mut consumers) = Line::new(1, 1, plan.len());
    let holds: Vec<Hold> = plan.iter().map(|(_, at)| Hold::new(at.map_or(When::Never, When::Look))).collect();
    let mut consumer = consumers.swap_remove(0);
    scope(|scope| {
        scope.spawn(|| {
            for (draw, ((tries, at_look), hold)) in plan.iter().zip(&holds).enumerate() {
                let looks = line.draw_held(&mut consumer, hold).looks;
                let wanted = at_look.unwrap_or(1 + tries + 1 + 1);
                insist(looks == wanted, &format!("draw {draw} looks {looks} times, not {wanted}"));
            }
        });
        let mut sleeps = 0;
        for (draw, hold) in (1..).zip(&holds) {
            let is_to_sleep = hold.when == When::Never;
            sleeps += u64::from(is_to_sleep);
            until(|| line.asleep.load(SeqCst) >= sleeps && (is_to_sleep || hold.held.load(SeqCst) > 0));
            insist(line.push(&mut source) == u64::from(is_to_sleep), "a push wakes another number of threads");
            hold.release();
            wait_for(&line.drawn, draw);
        }
    });
}

/// The tries of a look of the full length.
const MOST: u64 = 1_024;

/// A look in vain halves the next. After 16 of them one has its full length again, then after 32 more, and so on up to each 1,024.
#[test]
fn looks_in_vain_grow_short() {
    let halves = [1_024, 512, 256, 128, 64, 32, 16, 8, 4, 2].into_iter().chain([1; 6]);
    let seldom = [32, 64, 128, 256, 512, 1_024, 1_024, 1_024].map(|ones| [MOST].into_iter().chain(vec![1; ones]));
    let all: Vec<_> = halves.chain(seldom.into_iter().flatten()).chain([MOST]).map(|tries| (tries, None)).collect();
    looks_are(&all);
}

/// A look that finds an item doubles the next, up to the full length, and begins the count of those in vain anew.
#[test]
fn looks_that_find_grow_long() {
    let vain = |tries| (tries, None);
    let found = |look| (0, Some(look));
    let mut plan: Vec<_> = [1_024, 512, 256, 128, 64, 32, 16].map(vain).to_vec();
    plan.extend([found(3), vain(16), vain(8), found(2), found(2), found(2), vain(32)]);
    plan.extend([found(6); 8]);
    plan.push(vain(MOST));
    plan.extend([512, 256, 128, 64, 32, 16, 8, 4, 2].map(vain));
    plan.extend([vain(1); 6]);
    plan.extend([found(3), vain(2)]);
    plan.extend([vain(1); 15]);
    // From now on 32 are in vain between two of the full length, until one finds an item again.
    plan.extend([vain(MOST), vain(1), found(2), vain(2)]);
    plan.extend([vain(1); 15]);
    plan.push(vain(MOST));
    looks_are(&plan);
}
