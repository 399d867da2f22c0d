//! A tag in its place. The tag has a share of its queue, so a request doesn't count one.
use crate::erased::queue_core::BiasedTag;
use crate::lent::Lent;
use crate::limits::Limits;
use crate::shared::Shared;
use std::sync::Arc;

/// The part of a tag that changes as it is used.
pub(crate) struct TagState {
    pub(crate) erased: BiasedTag,
    /// The limits in force while its request is in flight.
    pub(crate) limits: Limits,
    /// Whether it becomes biased when its request leaves.
    pub(crate) keeps: bool,
    /// The number of requests after which it checks again whether it may be biased.
    pub(crate) asks_after: u32,
    /// Its slot, below the number of the queue's slots.
    pub(crate) slot: u32,
    /// The index of the tag in its queue, from 0: also of its place, and of the seat of a future that waits with it.
    pub(crate) number: usize,
    /// A waker was noted at its seat, and may still be there.
    pub(crate) is_noted: bool,
    /// Its place has a note of the request that is in flight with it.
    pub(crate) is_watched: bool,
}

impl TagState {
    /// A tag that has no bias, and with which no request is in flight.
    pub(crate) fn new(erased: BiasedTag, number: usize, limits: Limits) -> TagState {
        TagState { erased, limits, keeps: false, asks_after: 0, slot: 0, number, is_noted: false, is_watched: false }
    }
}

/// A tag with a share of its queue.
pub(crate) struct Parts<T> {
    pub(crate) state: TagState,
    pub(crate) shared: Arc<Shared<T>>,
}

/// A tag that is out of its place. It is brought home, or it ends, and its share of the queue with it.
pub(crate) type Body<T> = Lent<Parts<T>>;

#[cfg(test)]
mod tests {
    use crate::lent::{Home, Lent};
    use crate::places::Place;
    use std::cell::Cell;
    use std::rc::Rc;

    /// A call of it compiles only if the type isn't `Sync`: otherwise there are two such functions.
    trait NotShared<Form> {
        fn is_not_shared() {}
    }
    struct Shared;
    impl<T> NotShared<()> for T {}
    impl<T: Sync> NotShared<Shared> for T {}

    /// The same for `Send`.
    trait NotSent<Form> {
        fn is_not_sent() {}
    }
    struct Sent;
    impl<T> NotSent<()> for T {}
    impl<T: Send> NotSent<Sent> for T {}

    fn crosses_threads<T: Send + Sync>() {}

    #[test]
    fn what_is_lent_crosses_threads_if_it_may() {
        crosses_threads::<Lent<u32>>();
        crosses_threads::<Home<Cell<u32>>>(); // one holder at a time
    }

    #[test]
    fn what_may_not_cross_threads_is_lent_on_one() {
        <Lent<Cell<u32>> as NotShared<_>>::is_not_shared();
        <Lent<Rc<u32>> as NotSent<_>>::is_not_sent();
        <Home<Rc<u32>> as NotShared<_>>::is_not_shared();
    }

    #[test]
    fn a_place_is_no_larger_than_the_page_says() {
        assert!(size_of::<Place<()>>() <= 384);
        assert_eq!(size_of::<Place<[u8; 999]>>(), size_of::<Place<()>>());
    }
}
