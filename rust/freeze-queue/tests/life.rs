//! Each call on one thread: its outcome, each refusal, and that a refusal leaves everything as it was.
use freeze_queue::{
    EnterError, Final, FreezeError, HandedBack, Limits, LimitsError, NewError, OwnedRequest, Piece, Queue, RemoveError,
    Tag, UpdateError,
};
use std::error::Error;
use std::mem;
use std::panic::{AssertUnwindSafe, catch_unwind};
use std::thread;
use std::time::{Duration, Instant};

mod shared;
use shared::{LIMITS, queue, with_tag};

#[test]
fn sizes() {
    for (slots, tags) in [(0, 1), (513, 1), (1, 0), (1, 1024), (u32::MAX, u32::MAX)] {
        assert_eq!(Queue::builder(LIMITS).slots(slots).tags(tags).build().unwrap_err().reason, NewError::Size);
    }
    for (slots, tags) in [(1, 1), (512, 1023), (1, 1023), (512, 1), (64, 63)] {
        let queue = queue(slots, tags);
        let mut all: Vec<Tag> = (0..tags).map(|_| queue.tag().unwrap()).collect();
        assert_eq!(queue.tag().unwrap_err(), EnterError::NoTag);
        let requests: Vec<_> = all.iter_mut().map(|tag| queue.enter(tag).unwrap()).collect();
        assert_eq!(queue.try_freeze().unwrap_err(), FreezeError::NotDrained);
        drop(requests);
        assert!(queue.try_freeze().is_ok());
        for tag in all {
            drop(tag);
        }
        let last = queue.remove().unwrap(); // the freeze that wasn't drained, the one that was, and its own
        assert_eq!(last, Final { kills: 3, releases: 2, limits: LIMITS, value: () });
    }
}

/// Refusals of limits, in the order in which they apply; the same of a queue that is made, of a set and of pieces.
#[test]
fn limits_that_are_refused() {
    let wanted = [
        (LIMITS.with_hardware(0), LimitsError::HardwareRange),
        (LIMITS.with_hardware(65_536).with_max(65_537), LimitsError::HardwareRange),
        (LIMITS.with_max(65).with_chunk(65_536), LimitsError::AboveHardware),
        (LIMITS.with_chunk(65_536).with_physical(3), LimitsError::ChunkTooLarge),
        (LIMITS.with_physical(0), LimitsError::BadPhysical),
        (LIMITS.with_physical(3), LimitsError::BadPhysical),
        (LIMITS.with_physical(65_536), LimitsError::BadPhysical),
    ];
    let queue = queue(1, 1);
    let frozen = queue.freeze().unwrap();
    for (limits, why) in wanted {
        assert_eq!(limits.check(), Err(why));
        assert_eq!(Queue::builder(limits).slots(0).tags(0).build().unwrap_err().reason, NewError::Limits(why));
        assert_eq!(limits.pieces(1 << 40, 1).unwrap_err(), why);
        assert_eq!(frozen.set(limits), Err(UpdateError::Limits(why)));
    }
    assert_eq!(frozen.set(LIMITS.with_hardware(63)), Err(UpdateError::OtherHardware));
    assert_eq!(queue.limits(), LIMITS);
    let most = Limits::of_hardware(65_535).with_max(65_535).with_chunk(65_535).with_physical(32_768);
    assert_eq!(Queue::builder(most).slots(1).tags(1).build().unwrap().limits(), most);
    let least = Limits::of_hardware(1).with_max(0).with_chunk(0).with_physical(1);
    assert_eq!(Queue::builder(least).slots(1).tags(1).build().unwrap().limits(), least.with_max(1));
    let plain = Limits::of_hardware(9);
    assert_eq!((plain.hardware, plain.max, plain.chunk, plain.physical), (9, 9, 0, 1));
}

fn lengths(limits: Limits, start: u64, count: u32) -> Vec<u32> {
    limits.pieces(start, count).unwrap().map(|piece| piece.sectors).collect()
}

/// Worked by hand.
#[test]
fn pieces() {
    assert_eq!(lengths(Limits::of_hardware(64).with_chunk(8), 6, 6), [2, 4]);
    assert_eq!(lengths(LIMITS.with_max(4).with_chunk(8), 6, 6), [2, 4]);
    assert_eq!(lengths(LIMITS.with_max(12).with_chunk(0), 3, 40), [5, 8, 8, 8, 11]);
    assert_eq!(lengths(LIMITS.with_max(5).with_chunk(0), 0, 12), [5, 3, 4]);
    assert_eq!(lengths(LIMITS, 0, 0), []);
    let last: Vec<Piece> = LIMITS.pieces((1 << 33) - 3, 3).unwrap().collect();
    assert_eq!(last, [Piece { start: (1 << 33) - 3, sectors: 3 }]);
    for (start, count) in [((1 << 33) - 3, 4), (1 << 33, 1), (u64::MAX, 1), (u64::MAX, u32::MAX), ((1 << 33) + 1, 0)] {
        assert_eq!(LIMITS.pieces(start, count).unwrap_err(), LimitsError::TooFar);
    }
    assert_eq!(LIMITS.pieces(1 << 33, 0).unwrap().count(), 0);
    let mut pieces = LIMITS.pieces(0, 33).unwrap();
    assert_eq!(pieces.size_hint(), (1, Some(33)));
    assert_eq!(pieces.clone().count(), 2);
    pieces.next();
    pieces.next();
    assert_eq!((pieces.size_hint(), pieces.next(), pieces.next()), ((0, Some(0)), None, None));
    let all = Limits::of_hardware(65_535);
    let sum: u64 = all.pieces(0, u32::MAX).unwrap().map(|piece| u64::from(piece.sectors)).sum();
    assert_eq!((all.pieces(0, u32::MAX).unwrap().count(), sum), (65_537, u64::from(u32::MAX)));
}

#[test]
fn a_request() {
    let (queue, mut tag) = with_tag();
    let request = queue.enter(&mut tag).unwrap();
    assert_eq!((request.limits(), queue.depth()), (&LIMITS, 0));
    let pieces: Vec<Piece> = request.pieces(120, 20).unwrap().collect();
    assert_eq!(pieces, [Piece { start: 120, sectors: 8 }, Piece { start: 128, sectors: 12 }]);
    assert_eq!(request.pieces(1 << 33, 1).unwrap_err(), LimitsError::TooFar);
    assert!(!queue.is_drained());
    drop(request);
    assert!(queue.try_enter(&mut tag).is_ok());
    assert!(queue.try_enter_frozen(&mut tag).is_ok());
    assert!(queue.enter_timeout(&mut tag, Duration::ZERO).is_ok());
    assert!(queue.enter_timeout(&mut tag, Duration::MAX).is_ok());
    drop(tag);
    assert_eq!(queue.remove().unwrap(), Final { kills: 1, releases: 1, limits: LIMITS, value: () });
}

#[test]
fn a_freeze() {
    let (queue, mut tag) = with_tag();
    let other = LIMITS.with_max(8).with_chunk(0);
    let frozen = queue.freeze().unwrap();
    assert_eq!((queue.depth(), queue.is_drained()), (1, true));
    assert_eq!(queue.try_enter(&mut tag).unwrap_err(), EnterError::Frozen);
    assert_eq!(queue.enter_timeout(&mut tag, Duration::ZERO).unwrap_err(), EnterError::TimedOut);
    assert_eq!(queue.try_enter_frozen(&mut tag).unwrap_err(), EnterError::Drained);
    frozen.set(other).unwrap();
    assert_eq!(queue.limits(), other);
    let nested = queue.try_freeze().unwrap();
    drop(frozen);
    assert_eq!((queue.depth(), queue.is_drained()), (1, true));
    assert_eq!(queue.try_enter(&mut tag).unwrap_err(), EnterError::Frozen);
    nested.set(other.with_max(0)).unwrap();
    drop(nested);
    assert_eq!((queue.depth(), queue.is_drained()), (0, false));
    assert_eq!(queue.enter(&mut tag).unwrap().limits(), &other.with_max(64));
}

#[test]
fn a_freeze_while_a_request_is_under_way() {
    let (queue, mut tag) = with_tag();
    let mut other = queue.tag().unwrap();
    let request = queue.enter(&mut tag).unwrap();
    assert_eq!(queue.try_freeze().unwrap_err(), FreezeError::NotDrained);
    assert_eq!(queue.freeze_timeout(Duration::ZERO).unwrap_err(), FreezeError::TimedOut);
    let began = Instant::now();
    assert_eq!(queue.freeze_timeout(Duration::from_millis(30)).unwrap_err(), FreezeError::TimedOut);
    assert!(began.elapsed() >= Duration::from_millis(30));
    assert_eq!((queue.depth(), queue.is_drained()), (0, false));
    assert!(queue.enter(&mut other).is_ok());
    drop(request);
    assert!(queue.freeze_timeout(Duration::ZERO).is_ok());
    let frozen = queue.freeze_timeout(Duration::MAX).unwrap();
    let began = Instant::now();
    let late = queue.enter_timeout(&mut tag, Duration::from_millis(30));
    assert_eq!(late.unwrap_err(), EnterError::TimedOut);
    assert!(began.elapsed() >= Duration::from_millis(30));
    drop(frozen);
}

/// An update changes what it finds, under one freeze; one that is refused, or panics, sets nothing and freezes nothing.
#[test]
fn an_update() {
    let (queue, mut tag) = with_tag();
    let set = queue.update(|limits| limits.with_max(limits.max + 1).with_chunk(0)).unwrap();
    assert_eq!((set, queue.limits()), (LIMITS.with_max(33).with_chunk(0), set));
    assert_eq!(queue.update(|limits| limits.with_max(0)), Ok(set.with_max(64)));
    assert_eq!(queue.update(|_| LIMITS.with_max(65)), Err(UpdateError::Limits(LimitsError::AboveHardware)));
    assert_eq!(queue.update(|_| Limits::of_hardware(32)), Err(UpdateError::OtherHardware));
    let inside = queue.update(|limits| {
        assert_eq!((queue.depth(), queue.is_drained()), (0, false));
        assert!(queue.try_enter(&mut tag).is_ok());
        limits
    });
    assert_eq!(inside, Ok(set.with_max(64)));
    assert!(catch_unwind(AssertUnwindSafe(|| queue.update(|_| panic!("as the test wants")))).is_err());
    assert_eq!((queue.depth(), queue.limits()), (0, set.with_max(64)));
    let _all: Vec<_> = (0..Queue::MAX_DEPTH).map(|_| queue.freeze().unwrap()).collect();
    assert_eq!(queue.update(|limits| limits), Err(UpdateError::Freeze(FreezeError::DepthFull)));
}

#[test]
fn as_many_freezes_as_there_are() {
    let queue = queue(1, 1);
    let all: Vec<_> = (0..Queue::MAX_DEPTH).map(|_| queue.freeze().unwrap()).collect();
    assert_eq!(queue.freeze().unwrap_err(), FreezeError::DepthFull);
    assert_eq!(queue.try_freeze().unwrap_err(), FreezeError::DepthFull);
    assert_eq!(queue.freeze_timeout(Duration::ZERO).unwrap_err(), FreezeError::DepthFull);
    assert_eq!(queue.depth(), 1000);
    drop(all);
    assert_eq!((queue.depth(), queue.remove().unwrap().kills), (0, 2));
}

#[test]
fn a_device_that_is_gone() {
    let (queue, mut tag) = with_tag();
    assert!(!queue.is_dying());
    queue.freeze().unwrap().mark_dying();
    assert_eq!((queue.is_dying(), queue.depth(), queue.is_drained()), (true, 0, true));
    assert_eq!(queue.enter(&mut tag).unwrap_err(), EnterError::Dying);
    assert_eq!(queue.try_enter(&mut tag).unwrap_err(), EnterError::Dying);
    assert_eq!(queue.enter_timeout(&mut tag, Duration::MAX).unwrap_err(), EnterError::Dying);
    assert_eq!(queue.try_enter_frozen(&mut tag).unwrap_err(), EnterError::Drained);
    let changed = Limits::of_hardware(64).with_max(9);
    assert_eq!((queue.update(|_| changed), queue.limits()), (Ok(changed), changed));
    queue.freeze().unwrap().set(Limits::of_hardware(64)).unwrap();
    assert_eq!((queue.is_dying(), queue.depth()), (true, 0));
    drop((queue.tag().unwrap(), tag));
    assert_eq!(queue.remove().unwrap(), Final { kills: 1, releases: 1, limits: Limits::of_hardware(64), value: () });
}

/// A queue dies behind as many freezes as there can be, and each of them is thawed and begun again as before.
#[test]
fn a_device_goes_at_the_greatest_depth() {
    let (queue, mut tag) = with_tag();
    let mut all: Vec<_> = (0..Queue::MAX_DEPTH).map(|_| queue.freeze().unwrap()).collect();
    queue.mark_dying();
    queue.mark_dying();
    assert_eq!((queue.freeze().unwrap_err(), queue.depth()), (FreezeError::DepthFull, Queue::MAX_DEPTH));
    while let Some(frozen) = all.pop() {
        drop(frozen);
        assert_eq!((queue.depth() as usize, queue.is_drained()), (all.len(), true));
        assert_eq!(queue.try_enter(&mut tag).unwrap_err(), EnterError::Dying);
    }
    let again: Vec<_> = (0..Queue::MAX_DEPTH).map(|_| queue.freeze().unwrap()).collect();
    assert_eq!(queue.freeze().unwrap_err(), FreezeError::DepthFull);
    drop((all, again));
    drop(tag);
    assert_eq!(queue.remove().unwrap(), Final { kills: 1, releases: 1, limits: LIMITS, value: () });
}

/// A device that goes marks its queue, frozen or not, and the wait ends with the last request.
#[test]
fn a_device_that_goes_is_waited_for() {
    let (queue, mut tag) = with_tag();
    let mut other = queue.tag().unwrap();
    let hung = queue.enter(&mut tag).unwrap();
    assert!(!queue.shut_down_timeout(Duration::ZERO));
    assert_eq!(queue.try_enter(&mut other).unwrap_err(), EnterError::Dying);
    thread::scope(|threads| {
        let waits = threads.spawn(|| queue.shut_down());
        drop(hung);
        waits.join().unwrap();
    });
    assert_eq!((queue.is_drained(), queue.depth()), (true, 0));
    queue.shut_down();
}

/// A queue dies while a request is in flight: one that waits is sent away, the request leaves, and a freeze drains.
#[test]
fn a_device_that_is_gone_while_a_request_hangs() {
    let (queue, mut tag) = with_tag();
    let mut waiting = queue.tag().unwrap();
    let hung = queue.enter(&mut tag).unwrap();
    let freezing = queue.begin_freeze().unwrap();
    thread::scope(|threads| {
        let sent_away = threads.spawn(|| queue.enter(&mut waiting).map(drop));
        freezing.mark_dying();
        assert_eq!(sent_away.join().unwrap(), Err(EnterError::Dying));
    });
    assert_eq!((queue.is_dying(), queue.depth(), queue.is_drained()), (true, 0, false));
    assert_eq!(queue.freeze_timeout(Duration::ZERO).unwrap_err(), FreezeError::TimedOut);
    drop(hung);
    assert_eq!((queue.is_drained(), queue.freeze().unwrap().limits()), (true, LIMITS));
    assert_eq!(queue.enter(&mut tag).unwrap_err(), EnterError::Dying);
    drop((tag, waiting));
    assert_eq!(queue.remove().unwrap(), Final { kills: 1, releases: 1, limits: LIMITS, value: () });
}

#[test]
fn tags_of_another_queue() {
    let ((here, mut tag), there) = (with_tag(), queue(2, 2));
    assert_eq!((tag.queue_id(), here.id() == there.id()), (here.id(), false));
    assert_eq!(there.enter(&mut tag).unwrap_err(), EnterError::OtherQueue);
    assert_eq!(there.try_enter(&mut tag).unwrap_err(), EnterError::OtherQueue);
    assert_eq!(there.try_enter_frozen(&mut tag).unwrap_err(), EnterError::OtherQueue);
    assert_eq!(there.enter_timeout(&mut tag, Duration::MAX).unwrap_err(), EnterError::OtherQueue);
    let refused = there.enter_owned(tag).unwrap_err();
    assert_eq!(refused.reason, EnterError::OtherQueue);
    let refused = there.try_enter_owned(refused.value).unwrap_err();
    assert_eq!(refused.reason, EnterError::OtherQueue);
    drop(refused.value);
    assert!(there.remove().is_ok());
}

#[test]
fn sizes_by_default_and_reserved_tags() {
    let processors = thread::available_parallelism().unwrap().get();
    let queue = Queue::new(LIMITS).unwrap();
    assert_eq!((queue.tags(), queue.slots() as usize, queue.limits()), (256, processors.min(512), LIMITS));
    let refused = Queue::builder(LIMITS).tags(3).reserved(3).value("kept").build().unwrap_err();
    assert_eq!((refused.reason, refused.value), (NewError::Size, "kept"));
    let queue = Queue::builder(LIMITS).slots(2).tags(3).reserved(2).build().unwrap();
    assert_eq!((queue.tags(), queue.slots()), (3, 2));
    let any = queue.enter_any().unwrap();
    assert_eq!(queue.try_enter_any().unwrap_err(), EnterError::NoTag);
    let (one, other) = (queue.tag().unwrap(), queue.tag().unwrap());
    assert_eq!([one.number(), other.number(), any.tag_number()], [0, 1, 2]);
    assert_eq!(queue.tag().unwrap_err(), EnterError::NoTag);
    drop((one, other));
    assert_eq!(queue.enter_any_timeout(Duration::from_millis(1)).unwrap_err(), EnterError::TimedOut);
    drop(any);
    let all = [0, 1, 2].map(|_| queue.tag().unwrap());
    assert_eq!(queue.try_enter_any().unwrap_err(), EnterError::NoTag);
    drop(all);
    queue.remove().unwrap();
}

/// A reserved tag that comes home goes to nobody in line.
#[test]
fn a_reserved_tag_isnt_handed_over() {
    let queue = Queue::builder(LIMITS).slots(1).tags(2).reserved(1).build().unwrap();
    let (kept, any) = (queue.tag().unwrap(), queue.enter_any().unwrap());
    assert_eq!(queue.tag().unwrap_err(), EnterError::NoTag);
    thread::scope(|threads| {
        let waits = threads.spawn(|| queue.enter_any().map(|request| request.tag_number()));
        while queue.stats().waited == 0 {
            thread::yield_now();
        }
        drop(kept);
        assert_eq!(queue.tag().unwrap().number(), 0);
        drop(any);
        assert_eq!(waits.join().unwrap(), Ok(1));
    });
}

#[test]
fn tags_come_and_go() {
    let queue = queue(1, 1);
    let frozen = queue.freeze().unwrap();
    for _ in 0..200 {
        let tag = queue.tag().unwrap();
        assert_eq!(queue.tag().unwrap_err(), EnterError::NoTag);
        drop(tag);
    }
    drop(frozen);
    for _ in 0..200 {
        let request = queue.enter_owned(queue.tag().unwrap()).unwrap();
        drop(request.leave());
    }
}

#[test]
fn modes() {
    let (queue, mut tag) = with_tag();
    let request = queue.enter(&mut tag).unwrap();
    queue.switch_to_atomic();
    assert_eq!(queue.try_freeze().unwrap_err(), FreezeError::NotDrained);
    drop(request);
    drop(queue.freeze().unwrap());
    queue.switch_to_slots();
    queue.switch_to_slots();
    assert!(queue.enter(&mut tag).is_ok());
    let frozen = queue.freeze().unwrap();
    queue.switch_to_atomic();
    drop(frozen);
    assert!(queue.enter(&mut tag).is_ok());
}

#[test]
fn the_end() -> Result<(), Box<dyn Error>> {
    let (queue, tag) = with_tag();
    let id = queue.id();
    let refused = queue.remove().unwrap_err();
    assert_eq!((refused.reason, refused.value.id()), (RemoveError::TagsOut, id));
    let queue = refused.value;
    assert_eq!(queue.depth(), 0);
    drop(tag);
    queue.mark_dying(); // stays frozen, and is drained
    assert_eq!(queue.remove()?, Final { kills: 1, releases: 1, limits: LIMITS, value: () });
    Ok(())
}

#[test]
fn what_is_shown() {
    let (queue, mut tag) = with_tag();
    let id = queue.id();
    assert_eq!(format!("{queue:?}"), format!("Queue {{ id: {id}, .. }}"));
    assert_eq!(format!("{tag:?}"), format!("Tag {{ queue: {id}, number: 0, .. }}"));
    let of_queue = format!("queue: {id}, ..");
    assert_eq!(format!("{:?}", queue.enter(&mut tag).unwrap()), format!("Request {{ queue: {id}, tag: 0, .. }}"));
    assert_eq!(format!("{:?}", queue.freeze().unwrap()), format!("Frozen {{ {of_queue} }}"));
    assert_eq!(format!("{:?}", queue.begin_freeze().unwrap()), format!("Freezing {{ {of_queue} }}"));
    assert_eq!(format!("{:?}", queue.freeze().unwrap().into_owned()), format!("Frozen {{ {of_queue} }}"));
    let request = queue.enter_owned(tag).unwrap();
    assert_eq!(format!("{request:?}"), format!("OwnedRequest {{ queue: {id}, tag: 0, .. }}"));
}

#[test]
fn sizes_in_memory() {
    assert_eq!((mem::size_of::<Tag>(), mem::size_of::<Queue>()), (8, 8));
    assert_eq!(mem::size_of::<OwnedRequest>(), 8);
    assert!(mem::size_of::<Result<OwnedRequest, HandedBack<Tag, EnterError>>>() <= 16);
}
