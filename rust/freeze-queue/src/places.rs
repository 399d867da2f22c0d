//! Where the tags of a queue lie: a place for each, on cache lines of its own.
//!
//! A request that ends on any thread brings its tag home, and reads nothing that other threads write: it doesn't count a
//! share of its queue. The tag itself has a share, at home or out, so the places outlive each step on them. They are freed
//! with their queue, unless a tag was dropped after its request was leaked: then they are leaked too. (A leaked tag or owned
//! request keeps its whole queue.)
use crate::body::{Body, Parts};
use crate::in_flight::InFlight;
use crate::lent::{self, Home};
use crate::locked::Lock;
use std::mem::ManuallyDrop;

/// The place of a tag. It is empty before the queue has its tags, and after the tag has ended.
#[repr(align(128))]
pub(crate) struct Place<T> {
    pub(crate) home: Home<Parts<T>>,
    /// The request in flight with the tag, if the queue is watched.
    pub(crate) noted: Lock<Option<InFlight>>,
}

/// The places of a queue, empty at first. By the time this is dropped no tag is home.
pub(crate) struct Places<T> {
    all: ManuallyDrop<Vec<Place<T>>>,
    /// The number of places, from the first on, that are reserved for callers that keep a tag.
    reserved: usize,
}

impl<T> Places<T> {
    /// Makes this many places, some of which, but not all, are reserved. None if memory is refused.
    pub(crate) fn new(count: usize, reserved: usize) -> Option<Places<T>> {
        let mut places: Vec<Place<T>> = Vec::new();
        places.try_reserve_exact(count).ok()?;
        places.resize_with(count, || Place { home: Home::empty(), noted: Lock::new(None) });
        Some(Places { all: ManuallyDrop::new(places), reserved })
    }

    #[inline]
    pub(crate) fn all(&self) -> &[Place<T>] {
        &self.all
    }

    #[inline]
    pub(crate) fn is_reserved(&self, number: usize) -> bool {
        number < self.reserved
    }

    /// The places of the tags that aren't reserved.
    #[inline]
    pub(crate) fn any(&self) -> &[Place<T>] {
        &self.all()[self.reserved..]
    }

    /// The places of the reserved tags.
    pub(crate) fn reserved(&self) -> &[Place<T>] {
        &self.all()[..self.reserved]
    }

    /// Returns how many tags are home.
    pub(crate) fn free(&self) -> u64 {
        self.all().iter().map(|place| u64::from(place.home.is_here())).sum()
    }

    /// Returns the tag of this number if it is home and not reserved.
    #[inline]
    pub(crate) fn try_take_at(&self, number: usize) -> Option<Body<T>> {
        let home = &self.all().get(number).filter(|_| !self.is_reserved(number))?.home;
        if home.is_here() { home.take() } else { None }
    }

    /// Returns a tag that is home and not reserved, searching from this place on, and its number. It may miss a tag that
    /// comes home meanwhile.
    pub(crate) fn try_take(&self, from: usize) -> Option<(usize, Body<T>)> {
        let places = self.any();
        let first = from.wrapping_sub(self.reserved);
        let mut at = if first < places.len() { first } else { from % places.len() };
        for _ in 0..places.len() {
            let home = &places[at].home;
            if home.is_here() {
                if let Some(body) = home.take() {
                    return Some((self.reserved + at, body));
                }
            }
            at = if at + 1 == places.len() { 0 } else { at + 1 };
        }
        None
    }
}

/// Returns a tag that is home in one of these places. If none is, all are marked as asked for, and a returning tag goes
/// to the line first. So none comes home while the caller has the lock.
pub(crate) fn take_or_ask<T>(places: &[Place<T>]) -> Option<Body<T>> {
    places.iter().find_map(|place| place.home.take_or_ask())
}

impl<T> Drop for Places<T> {
    fn drop(&mut self) {
        if !self.all().iter().any(|place| place.home.is_out()) {
            lent::free(&mut self.all);
        }
    }
}

#[cfg(test)]
mod tests {
    use crate::limits::Limits;
    use crate::queue::Queue;
    use crate::tag::Tag;
    use std::sync::Arc;

    const TAGS: u32 = 200;
    const RESERVED: u32 = 30;

    /// The one tag that is home is found from each place on, unless it is reserved.
    #[test]
    fn the_one_tag_that_is_home_is_found() {
        let builder = Queue::builder(Limits::of_hardware(8)).slots(2).tags(TAGS).reserved(RESERVED);
        let queue = builder.build().unwrap();
        let mut tags: Vec<_> = (0..TAGS).map(|_| queue.tag().unwrap()).collect();
        let shared = Arc::clone(&tags[0].parts().shared);
        for _ in 0..TAGS {
            let number = tags[0].number();
            drop(tags.remove(0));
            for from in (0..2 * TAGS as usize).chain([usize::MAX]) {
                let found = shared.places.try_take(from).map(|(at, tag)| (at, Tag::of(tag).number()));
                let is_reserved = number < RESERVED as usize;
                assert_eq!(found, (!is_reserved).then_some((number, number)), "from {from}");
                let at_once = shared.places.try_take_at(from).map(|tag| Tag::of(tag).number());
                assert_eq!(at_once, (from == number && !is_reserved).then_some(number), "at {from}");
            }
            tags.push(queue.tag().unwrap());
        }
    }
}
