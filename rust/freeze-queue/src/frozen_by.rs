//! The freezes that a queue is under, to find out who forgot a thaw.
use std::panic::Location;
use std::time::Instant;

/// A freeze that isn't thawed, as its queue lists it ([`Queue::frozen_by`](crate::Queue::frozen_by)).
///
/// ```
/// use freeze_queue::{Limits, Queue};
///
/// let queue = Queue::builder(Limits::of_hardware(64)).slots(1).tags(1).build()?;
/// let frozen = queue.freeze()?;
/// let holders: Vec<_> = queue.frozen_by().collect();
/// assert_eq!((holders.len(), holders[0].location.file()), (1, file!()));
/// drop(frozen);
/// assert_eq!(queue.frozen_by().count(), 0);
/// # Ok::<(), Box<dyn std::error::Error>>(())
/// ```
#[derive(Clone, Copy, Debug, PartialEq, Eq)]
#[non_exhaustive]
pub struct FrozenBy {
    /// When the freeze began.
    pub since: Instant,
    /// Where the program called what began it: a freeze, or an update. For a form that is a future, where it was made.
    pub location: &'static Location<'static>,
}

/// The freezes that aren't thawed, the oldest first, each with its number.
#[derive(Default)]
pub(crate) struct FreezeList {
    freezes: Vec<(u64, FrozenBy)>,
    begun: u64,
}

impl FreezeList {
    /// Lists a freeze that begins now, unless memory is refused. Returns its number.
    pub(crate) fn add(&mut self, location: &'static Location<'static>) -> u64 {
        self.begun += 1;
        if self.freezes.try_reserve(1).is_ok() {
            self.freezes.push((self.begun, FrozenBy { since: Instant::now(), location }));
        }
        self.begun
    }

    /// Forgets the freeze of this number, which ends.
    pub(crate) fn remove(&mut self, number: u64) {
        self.freezes.retain(|freeze| freeze.0 != number);
    }

    /// Returns the first listed freeze with a greater number, with its number.
    pub(crate) fn after(&self, number: u64) -> Option<(u64, FrozenBy)> {
        self.freezes.iter().copied().find(|freeze| freeze.0 > number)
    }
}
