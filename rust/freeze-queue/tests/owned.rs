//! Requests with a tag of their own: what goes from thread to thread, each way to enter, and a refusal with its tag.
use freeze_queue::{
    EnterError, Final, FreezeError, Freezing, Frozen, HandedBack, OwnedFreezing, OwnedFrozen, OwnedRequest, Queue,
    RemoveError, Request, Tag,
};
use std::error::Error;
use std::pin::Pin;
use std::sync::Arc;
use std::task::{Context, Poll, Waker};
use std::thread;
use std::time::Duration;

mod shared;
use shared::{LIMITS, queue, with_tag};

/// Values that move from thread to thread, and that several look at.
#[test]
fn threads_share() {
    fn is_shared<T: Send + Sync>() {}
    is_shared::<Queue>();
    is_shared::<Tag>();
    is_shared::<Request<'_>>();
    is_shared::<OwnedRequest>();
    is_shared::<Frozen<'_>>();
    is_shared::<Freezing<'_>>();
    is_shared::<OwnedFrozen>();
    is_shared::<OwnedFreezing>();
    is_shared::<HandedBack<Tag, EnterError>>();
}

/// Futures move from thread to thread, and the owned ones borrow nothing.
#[test]
fn threads_share_futures() {
    fn is_shared<T: Send + Sync>(_: T) {}
    fn is_owned<T: Send + Sync + 'static>(_: T) {}
    let (queue, mut tag) = with_tag();
    is_shared(queue.enter_async(&mut tag));
    is_shared(queue.enter_any_async());
    is_shared(queue.freeze_async());
    is_shared(queue.update_async(|limits| limits));
    is_shared(queue.shut_down_async());
    is_shared(queue.begin_freeze().unwrap().drained());
    is_owned(queue.begin_freeze().unwrap().into_owned().drained());
    is_owned(queue.enter_owned_async(tag));
    is_owned(queue.enter_any_owned_async());
}

/// A refusal goes into a box of any error as its reason, and drops the tag.
#[test]
fn a_refusal_in_a_box_gives_its_tag_back() {
    fn enters(queue: &Queue, tag: Tag) -> Result<OwnedRequest, Box<dyn Error + Send + Sync>> {
        Ok(queue.enter_owned(tag)?)
    }
    let ((here, tag), there) = (with_tag(), queue(1, 1));
    let refused = enters(&there, tag).unwrap_err();
    assert_eq!(refused.to_string(), "the tag is of another queue");
    assert_eq!(refused.downcast_ref(), Some(&EnterError::OtherQueue));
    assert!(here.tag().is_ok() && here.tag().is_ok());
    let other = here.tag().unwrap();
    drop(enters(&there, other).unwrap_err()); // and its tag goes home
    here.remove().unwrap();
}

/// The pieces of a request end on several threads: the last one leaves.
#[test]
fn the_last_piece_leaves() {
    let queue = queue(1, 1);
    let request = Arc::new(queue.enter_any().unwrap());
    let pieces: Vec<_> = request.pieces(0, 128).unwrap().map(|piece| (piece, Arc::clone(&request))).collect();
    assert_eq!(pieces.len(), 4);
    drop(request);
    for (piece, request) in pieces {
        assert_eq!(queue.try_freeze().unwrap_err(), FreezeError::NotDrained);
        thread::spawn(move || assert!(piece.sectors <= request.limits().max)).join().unwrap();
    }
    assert!(queue.try_freeze().is_ok());
    queue.remove().unwrap();
}

/// The owned forms: each way to enter, and what each refuses.
#[test]
fn the_owned_forms() {
    let queue = queue(1, 1);
    let tag = queue.enter_owned_timeout(queue.tag().unwrap(), Duration::ZERO).unwrap().leave();
    let request = queue.try_enter_frozen_owned(tag).unwrap();
    let freezing = queue.begin_freeze().unwrap();
    assert!(!freezing.is_drained());
    let refused = queue.enter_owned_timeout(request.leave(), Duration::from_millis(1)).unwrap_err();
    assert_eq!(refused.reason, EnterError::TimedOut);
    let refused = queue.try_enter_frozen_owned(refused.value).unwrap_err();
    assert_eq!(refused.reason, EnterError::Drained);
    let mut entering = Box::pin(queue.enter_owned_async(refused.value));
    let mut context = Context::from_waker(Waker::noop());
    assert!(Pin::new(&mut entering).poll(&mut context).is_pending());
    drop(freezing);
    let Poll::Ready(Ok(request)) = Pin::new(&mut entering).poll(&mut context) else { panic!("it is live") };
    let other = Queue::builder(LIMITS).slots(1).tags(1).build().unwrap();
    let refused = other.enter_owned_timeout(request.leave(), Duration::MAX).unwrap_err();
    assert_eq!(refused.reason, EnterError::OtherQueue);
    let refused = other.try_enter_frozen_owned(refused.value).unwrap_err();
    assert_eq!(refused.reason, EnterError::OtherQueue);
    let mut entering = Box::pin(other.enter_owned_async(refused.value));
    let Poll::Ready(Err(refused)) = Pin::new(&mut entering).poll(&mut context) else { panic!("it is another's") };
    assert_eq!(refused.reason, EnterError::OtherQueue);
    queue.freeze().unwrap().mark_dying();
    let mut entering = Box::pin(queue.enter_owned_async(refused.value));
    let Poll::Ready(Err(refused)) = Pin::new(&mut entering).poll(&mut context) else { panic!("it is gone") };
    assert_eq!(refused.reason, EnterError::Dying);
    let refused = queue.enter_owned_timeout(refused.value, Duration::MAX).unwrap_err();
    assert_eq!(refused.reason, EnterError::Dying);
    drop(refused.value);
    queue.remove().unwrap();
}

#[test]
fn a_request_that_takes_its_tag_along() {
    let queue = queue(1, 1);
    let request = queue.enter_owned(queue.tag().unwrap()).unwrap();
    assert_eq!(request.limits(), &LIMITS);
    assert_eq!(request.pieces(0, 65).unwrap().map(|piece| piece.sectors).collect::<Vec<_>>(), [32, 32, 1]);
    assert_eq!(queue.try_freeze().unwrap_err(), FreezeError::NotDrained);
    let tag = request.leave();
    let frozen = queue.try_freeze().unwrap();
    let refused = queue.try_enter_owned(tag).unwrap_err();
    assert_eq!(refused.reason, EnterError::Frozen);
    drop(frozen);
    drop(queue.try_enter_owned(refused.value).unwrap()); // it leaves, and its tag goes home
    assert!(queue.try_freeze().is_ok());
    assert_eq!(queue.remove().unwrap().limits, LIMITS);
}

#[test]
fn the_question_mark_drops_what_is_handed_back() {
    fn removes(queue: Queue, _out: Tag) -> Result<Final, RemoveError> {
        Ok(queue.remove()?)
    }
    fn enters(queue: &Queue, tag: Tag) -> Result<(), EnterError> {
        drop(queue.enter_owned(tag)?);
        Ok(())
    }
    let (here, there) = (queue(1, 2), queue(1, 1));
    assert_eq!(enters(&there, here.tag().unwrap()), Err(EnterError::OtherQueue));
    let out = here.tag().unwrap();
    assert_eq!(removes(here, out), Err(RemoveError::TagsOut));
}
