//! Each call that enters returns the first error of its row in docs/RUST.md that applies, in each state of the queue and of its tag; and
//! each error's text.
use freeze_queue::EnterError::{Drained, Dying, Frozen, NoTag, OtherQueue, StillEntered, TimedOut};
use freeze_queue::{
    EnterError, FreezeError, HandedBack, Limits, LimitsError, NewError, OwnedRequest, Queue, RemoveError, Tag,
    UpdateError,
};
use std::error::Error;
use std::future::Future;
use std::iter;
use std::mem;
use std::pin::pin;
use std::task::{Context, Poll, Waker};
use std::time::Duration;

mod shared;
use shared::queue;

/// What applies to a call.
#[derive(Clone, Copy, Debug)]
#[expect(clippy::struct_excessive_bools, reason = "each of them applies or doesn't")]
struct Applies {
    is_frozen: bool,
    is_dying: bool,
    /// A request with another tag is in flight.
    is_busy: bool,
    /// No tag is free.
    is_out: bool,
    of_tag: Option<EnterError>,
}

impl Applies {
    fn all() -> impl Iterator<Item = Applies> {
        let of_tags = [None, Some(OtherQueue), Some(StillEntered)];
        of_tags.into_iter().flat_map(|of_tag| {
            (0..16).map(move |bits| {
                let [is_frozen, is_dying, is_busy, is_out] = [1, 2, 4, 8].map(|bit| bits & bit > 0);
                Applies { is_frozen, is_dying, is_busy, is_out, of_tag }
            })
        })
    }

    fn is_drained(self) -> bool {
        (self.is_frozen || self.is_dying) && !self.is_busy
    }

    /// Makes the calls in this state, each with a new tag.
    fn check(self) {
        let (queue, other) = (queue(1, 12), queue(1, 12));
        let new_tag = || {
            let mut tag = if self.of_tag == Some(OtherQueue) { other.tag() } else { queue.tag() }.unwrap();
            if self.of_tag == Some(StillEntered) {
                mem::forget(queue.enter(&mut tag).unwrap());
            }
            tag
        };
        let tags = [(); 8].map(|()| new_tag());
        let request = self.is_busy.then(|| queue.enter_any().unwrap());
        let out: Vec<Tag> = iter::from_fn(|| self.is_out.then(|| queue.tag().ok()).flatten()).collect();
        let freezing = self.is_frozen.then(|| queue.begin_freeze().unwrap());
        if self.is_dying {
            queue.mark_dying();
        }
        self.check_with_any(&queue);
        self.check_with_tags(&queue, tags); // last, since these calls give tags back
        drop((freezing, out, request));
    }

    fn check_with_tags(self, queue: &Queue, tags: [Tag; 8]) {
        let row = |reasons: &[(bool, EnterError)]| self.of_tag.or(first(reasons));
        let [mut one, mut two, mut three, mut four, five, six, seven, eight] = tags;
        let at_once = row(&[(self.is_dying, Dying), (self.is_frozen, Frozen)]);
        assert_eq!(queue.try_enter(&mut one).map(drop).err(), at_once, "{self:?}");
        assert_eq!(reason(queue.try_enter_owned(five)), at_once, "{self:?}");
        let late = row(&[(self.is_dying, Dying), (self.is_frozen, TimedOut)]);
        assert_eq!(queue.enter_timeout(&mut two, Duration::ZERO).map(drop).err(), late, "{self:?}");
        assert_eq!(reason(queue.enter_owned_timeout(six, Duration::ZERO)), late, "{self:?}");
        let looking = row(&[(self.is_drained() && self.of_tag.is_none(), Drained)]);
        assert_eq!(queue.try_enter_frozen(&mut three).map(drop).err(), looking, "{self:?}");
        assert_eq!(reason(queue.try_enter_frozen_owned(seven)), looking, "{self:?}");
        let done = outcome(self.is_frozen, row(&[(self.is_dying, Dying)]));
        assert_eq!(polled(async { queue.enter_async(&mut four).await.map(drop) }), done, "{self:?}");
        let entering = async { queue.enter_owned_async(eight).await.map(drop).map_err(|refused| refused.reason) };
        assert_eq!(polled(entering), done, "{self:?}");
    }

    fn check_with_any(self, queue: &Queue) {
        let at_once = first(&[(self.is_dying, Dying), (self.is_out, NoTag), (self.is_frozen, Frozen)]);
        assert_eq!(queue.try_enter_any().map(drop).err(), at_once, "{self:?}");
        let late = first(&[(self.is_dying, Dying), (self.is_out || self.is_frozen, TimedOut)]);
        assert_eq!(queue.enter_any_timeout(Duration::ZERO).map(drop).err(), late, "{self:?}");
        let done = outcome(self.is_out || self.is_frozen, first(&[(self.is_dying, Dying)]));
        assert_eq!(polled(async { queue.enter_any_async().await.map(drop) }), done, "{self:?}");
        assert_eq!(polled(async { queue.enter_any_owned_async().await.map(drop) }), done, "{self:?}");
        assert_eq!(queue.tag().map(drop).err(), first(&[(self.is_out, NoTag)]), "{self:?}");
    }
}

/// The first error that applies.
fn first(reasons: &[(bool, EnterError)]) -> Option<EnterError> {
    reasons.iter().find(|(applies, _)| *applies).map(|(_, why)| *why)
}

fn reason(entered: Result<OwnedRequest, HandedBack<Tag, EnterError>>) -> Option<EnterError> {
    entered.map(drop).map_err(|refused| refused.reason).err()
}

/// Polls a future once.
fn polled(future: impl Future<Output = Result<(), EnterError>>) -> Poll<Result<(), EnterError>> {
    pin!(future).poll(&mut Context::from_waker(Waker::noop()))
}

/// What a future returns at its first poll.
fn outcome(waits: bool, why: Option<EnterError>) -> Poll<Result<(), EnterError>> {
    match why {
        Some(why) => Poll::Ready(Err(why)),
        None if waits => Poll::Pending,
        None => Poll::Ready(Ok(())),
    }
}

#[test]
fn the_first_error_that_applies() {
    Applies::all().for_each(Applies::check);
}

#[test]
fn texts() {
    let all: [(Box<dyn Error>, &str); 28] = [
        (LimitsError::HardwareRange.into(), "a hardware limit outside 1 to 65535 sectors"),
        (LimitsError::AboveHardware.into(), "more sectors than the hardware takes"),
        (LimitsError::ChunkTooLarge.into(), "a chunk of more than 65535 sectors"),
        (LimitsError::BadPhysical.into(), "a physical block that isn't a power of two from 1 to 32768 sectors"),
        (LimitsError::TooFar.into(), "a sector of 2^33 or above"),
        (NewError::Limits(LimitsError::TooFar).into(), "invalid limits"),
        (NewError::Size.into(), "number of slots, tags or reserved tags out of range"),
        (NewError::NoMemory.into(), "no memory"),
        (OtherQueue.into(), "the tag is of another queue"),
        (StillEntered.into(), "the tag has entered"),
        (Frozen.into(), "the queue is frozen"),
        (Drained.into(), "the queue is drained"),
        (Dying.into(), "the queue's device is gone"),
        (NoTag.into(), "no tag is free"),
        (TimedOut.into(), "the deadline has passed"),
        (EnterError::NoMemory.into(), "no memory to wait for a tag"),
        (FreezeError::DepthFull.into(), "1000 freezes aren't thawed yet"),
        (FreezeError::WornOut.into(), "the queue was frozen 2^40 times"),
        (FreezeError::NotDrained.into(), "the queue isn't drained"),
        (FreezeError::TimedOut.into(), "the deadline has passed"),
        (UpdateError::Limits(LimitsError::TooFar).into(), "invalid limits"),
        (UpdateError::OtherHardware.into(), "a hardware limit that isn't the queue's"),
        (UpdateError::from(FreezeError::DepthFull).into(), "the update couldn't freeze the queue"),
        (UpdateError::from(FreezeError::TimedOut).into(), "the deadline has passed"),
        (UpdateError::Nested.into(), "a change within an update of the same queue"),
        (UpdateError::NoMemory.into(), "no memory to wait for another update"),
        (RemoveError::TagsOut.into(), "tags are out"),
        (RemoveError::Shared.into(), "a freeze or a future still uses the queue"),
    ];
    for (error, text) in all {
        assert_eq!(error.to_string(), text);
    }
    let why = UpdateError::from(FreezeError::DepthFull);
    assert_eq!(why.source().unwrap().to_string(), "1000 freezes aren't thawed yet");
}

#[test]
fn what_is_handed_back_says_why() {
    let queue = Queue::builder(Limits::of_hardware(8)).slots(1).tags(1).build().unwrap();
    let tag = queue.tag().unwrap();
    let refused = queue.remove().map(drop).unwrap_err();
    assert_eq!((refused.to_string().as_str(), refused.reason), ("tags are out", RemoveError::TagsOut));
    assert_eq!(format!("{refused:?}"), "HandedBack { reason: TagsOut, .. }");
    assert_eq!(Box::<dyn Error + Send + Sync>::from(refused).to_string(), "tags are out");
    drop(tag);
    let Err(why) = Queue::new(Limits::of_hardware(0)) else { panic!("a queue without hardware") };
    assert_eq!(why, NewError::Limits(LimitsError::HardwareRange));
}
