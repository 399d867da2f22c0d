//! Making a queue.
use crate::errors::NewError;
use crate::handed_back::HandedBack;
use crate::limits::Limits;
use crate::queue::Queue;
use std::thread;

/// Builds a queue; made by [`Queue::builder`].
///
/// ```
/// use freeze_queue::{Limits, Queue};
///
/// let queue = Queue::builder(Limits::of_hardware(64)).tags(8).reserved(2).value(String::from("disk")).build()?;
/// assert_eq!((queue.tags(), queue.enter_any()?.as_str()), (8, "disk"));
/// # Ok::<(), Box<dyn std::error::Error>>(())
/// ```
#[derive(Clone, Copy, Debug)]
#[must_use = "a builder does nothing until `build` is called"]
pub struct Builder<T = ()> {
    limits: Limits,
    tags: u32,
    slots: Option<u32>,
    reserved: u32,
    value: T,
}

impl Builder {
    pub(crate) fn new(limits: Limits) -> Builder {
        Builder { limits, tags: 256, slots: None, reserved: 0, value: () }
    }
}

/// The number of processors.
fn slots_of_machine() -> u32 {
    let processors = thread::available_parallelism().map_or(1, |it| u32::try_from(it.get()).unwrap_or(u32::MAX));
    processors.min(Queue::MAX_SLOTS)
}

impl<T> Builder<T> {
    /// Sets the number of tags, 1 to 1,023: the maximum number of requests in flight. The default is 256.
    pub fn tags(self, tags: u32) -> Builder<T> {
        Builder { tags, ..self }
    }

    /// Sets the number of counters (slots) over which requests in flight are spread, 1 to 512. The default is the number of processors.
    /// Each slot has a cache line of its own; threads that share a slot are slower.
    pub fn slots(self, slots: u32) -> Builder<T> {
        Builder { slots: Some(slots), ..self }
    }

    /// Reserves some of the tags, but not all, for threads that keep one. [`Queue::enter_any`] never uses reserved tags.
    /// [`Queue::tag`] gives them out first, and then the others. So if no tags are reserved, each tag that a thread keeps is missing
    /// for `enter_any`. The default is 0. Linux: `reserved_tags` of a `struct blk_mq_tag_set`.
    pub fn reserved(self, reserved: u32) -> Builder<T> {
        Builder { reserved, ..self }
    }

    /// Sets the value of the queue: a request derefs to U, and a freeze lends `&mut U`
    /// ([`OwnedFrozen::lock`](crate::OwnedFrozen::lock)).
    pub fn value<U>(self, value: U) -> Builder<U> {
        let Builder { limits, tags, slots, reserved, .. } = self;
        Builder { limits, tags, slots, reserved, value }
    }

    /// Makes a live queue. Linux: `blk_mq_alloc_queue`.
    ///
    /// # Errors
    ///
    /// Returns [`NewError`], and hands the value back.
    pub fn build(self) -> Result<Queue<T>, HandedBack<T, NewError>> {
        match Queue::maker(self.limits, self.slots.unwrap_or_else(slots_of_machine), self.tags, self.reserved) {
            Ok(make) => Ok(make(self.value)),
            Err(reason) => Err(HandedBack { value: self.value, reason }),
        }
    }
}
