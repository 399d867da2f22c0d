//! Four threads enter while two freeze, 100,000 times in all, and change the setting: a request sees one setting, each
//! thread that waits comes in, and the releases are the drains. `FREEZE_QUEUE_ROUNDS` changes how many freezes.
use freeze_queue::{EnterError, FreezeError, Limits, OwnedRequest, Queue, Request, Tag};
use std::sync::atomic::{AtomicBool, AtomicU64, Ordering};
use std::sync::{Arc, Mutex, mpsc};
use std::thread;
use std::time::Duration;

mod shared;
use shared::{Chance, block_on, number_of};

const THREADS: u32 = 4;

/// In a setting the chunk is four times the most of a piece: a setting that was changed in between would show.
fn setting(of: u64) -> Limits {
    let max = 1 + u32::try_from(of % 64).unwrap();
    Limits::of_hardware(64).with_max(max).with_chunk(4 * max)
}

fn is_one_setting(limits: &Limits) -> bool {
    limits.chunk == 4 * limits.max && limits.hardware == 64
}

fn freezes() -> u64 {
    number_of("FREEZE_QUEUE_ROUNDS", 100_000)
}

/// One of the ways in; none where it isn't let in, as it may be.
fn one_way<'e>(queue: &'e Queue, tag: &'e mut Tag, chance: &mut Chance) -> Option<Request<'e>> {
    match chance.below(8) {
        0 => block_on(queue.enter_async(tag)).ok(),
        1 => {
            let entered = queue.enter_timeout(tag, Duration::from_micros(20));
            assert!(!entered.as_ref().is_err_and(|why| *why != EnterError::TimedOut));
            entered.ok()
        }
        2 => {
            let entered = queue.try_enter(tag);
            assert!(!entered.as_ref().is_err_and(|why| *why != EnterError::Frozen));
            entered.ok()
        }
        3 => queue.try_enter_frozen(tag).ok(),
        _ => Some(queue.enter(tag).unwrap()),
    }
}

/// Requests until it is over: how many.
fn submit(queue: &Queue, tag: &mut Tag, over: &AtomicBool, drained: &AtomicU64) -> u64 {
    let (mut chance, mut requests) = (Chance(tag.number() as u64 + 1), 0);
    while !over.load(Ordering::Relaxed) {
        let Some(request) = one_way(queue, tag, &mut chance) else { continue };
        let seen = drained.load(Ordering::SeqCst);
        assert!(is_one_setting(request.limits()));
        let cut: u64 = request.pieces(1000, 10).unwrap().map(|piece| u64::from(piece.sectors)).sum();
        assert_eq!(cut, 10);
        assert_eq!(drained.load(Ordering::SeqCst), seen, "it was drained while a request was under way");
        requests += 1;
    }
    requests
}

/// Freezes so often, some of them without patience: how many were drained. The setting is changed under both guards.
fn change(queue: &Queue, number: u64, times: u64, drained: &AtomicU64) -> u64 {
    let mut done = 0;
    for time in 0..times {
        let frozen = match (time + number) % 4 {
            0 => match queue.freeze_timeout(Duration::from_micros(2)) {
                Err(why) => {
                    assert_eq!(why, FreezeError::TimedOut);
                    continue;
                }
                Ok(frozen) => frozen,
            },
            1 => match queue.try_freeze() {
                Err(why) => {
                    assert_eq!(why, FreezeError::NotDrained);
                    continue;
                }
                Ok(frozen) => frozen,
            },
            _ => queue.freeze().unwrap(),
        };
        drained.fetch_add(1, Ordering::SeqCst);
        frozen.set(setting(time)).unwrap();
        assert!(queue.is_drained());
        if time % 64 == 0 && number == 0 {
            if time % 128 == 0 { queue.switch_to_atomic() } else { queue.switch_to_slots() }
        }
        drop(frozen);
        done += 1;
    }
    done
}

#[test]
fn requests_under_freezes() {
    let queue = Queue::builder(setting(0)).slots(THREADS).tags(THREADS).build().unwrap();
    let mut tags: Vec<Tag> = (0..THREADS).map(|_| queue.tag().unwrap()).collect();
    let (over, drained) = (AtomicBool::new(false), AtomicU64::new(0));
    let (requests, done): (u64, u64) = thread::scope(|threads| {
        let (queue, over, drained) = (&queue, &over, &drained);
        let submits: Vec<_> =
            tags.iter_mut().map(|tag| threads.spawn(move || submit(queue, tag, over, drained))).collect();
        let changes = [0, 1].map(|number| threads.spawn(move || change(queue, number, freezes() / 2, drained)));
        let done = changes.into_iter().map(|thread| thread.join().unwrap()).sum();
        over.store(true, Ordering::Relaxed);
        (submits.into_iter().map(|thread| thread.join().unwrap()).sum(), done)
    });
    assert!(requests > 0 && done >= freezes() / 2);
    assert_eq!(drained.into_inner(), done);
    for tag in tags {
        drop(tag);
    }
    let last = queue.remove().unwrap();
    assert!(last.kills >= last.releases && last.kills <= freezes() + 1 && is_one_setting(&last.limits));
}

/// Ends requests that another thread began, and gives their tags back.
fn complete(begun: &Mutex<mpsc::Receiver<OwnedRequest>>) -> u64 {
    for completed in 0_u64.. {
        let next = begun.lock().unwrap().recv();
        let Ok(request) = next else { return completed };
        assert!(is_one_setting(request.limits()));
        drop(request.leave());
    }
    unreachable!()
}

/// Takes tags that are free, and hands them on with a request.
fn begin(queue: &Arc<Queue>, sent: &mpsc::Sender<OwnedRequest>, over: &AtomicBool) -> u64 {
    let mut began = 0;
    while !over.load(Ordering::SeqCst) {
        let Ok(tag) = queue.tag() else {
            thread::yield_now();
            continue;
        };
        sent.send(queue.enter_owned(tag).unwrap()).unwrap();
        began += 1;
    }
    began
}

#[test]
fn requests_end_on_other_threads() {
    let queue = Arc::new(Queue::builder(setting(0)).slots(2).tags(8).build().unwrap());
    let ((sent, begun), over) = (mpsc::channel(), AtomicBool::new(false));
    let (begun, changes) = (Mutex::new(begun), freezes() / 20);
    thread::scope(|threads| {
        let completers = [(); 2].map(|()| threads.spawn(|| complete(&begun)));
        let beginners = [sent.clone(), sent].map(|sent| {
            let (queue, over) = (&queue, &over);
            threads.spawn(move || begin(queue, &sent, over))
        });
        for change in 0..changes {
            queue.freeze().unwrap().set(setting(change)).unwrap();
        }
        over.store(true, Ordering::SeqCst);
        let total: u64 = beginners.into_iter().map(|thread| thread.join().unwrap()).sum();
        assert_eq!(completers.into_iter().map(|thread| thread.join().unwrap()).sum::<u64>(), total);
    });
    let last = Arc::into_inner(queue).unwrap().remove().unwrap();
    assert_eq!((last.kills, last.releases, last.limits), (changes + 1, changes + 1, setting(changes - 1)));
}
