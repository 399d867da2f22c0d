//! Counts of what a queue has done, kept only on the slow path.
use std::mem;
use std::time::{Duration, Instant};

/// What a queue has done since it was made: [`Queue::stats`](crate::Queue::stats).
///
/// A request that enters at once isn't counted, so it doesn't pay for this. A drain or a freeze that goes on counts up to now.
#[derive(Clone, Copy, Debug, Default, PartialEq, Eq)]
#[non_exhaustive]
pub struct Stats {
    /// Number of waits: to enter, for a tag, or for the turn to update. A request that waits for a tag and then for a thaw counts twice.
    pub waited: u64,
    /// Number of freezes that began, including those of updates.
    pub freezes: u64,
    /// Number of updates that set limits.
    pub updates: u64,
    /// Number of waits that ended because their deadline had passed.
    pub timed_out: u64,
    /// Number of drains that were given up: the last thaw came while a request was in flight.
    pub abandoned: u64,
    /// Time from the first of nested freezes, or from `mark_dying`, to the drain or until it was given up, summed over all drains.
    pub draining: Duration,
    /// The longest of these drains.
    pub longest_drain: Duration,
    /// Time from the first of nested freezes to the last thaw or to [`mark_dying`](crate::Queue::mark_dying), summed.
    pub frozen: Duration,
    /// When the first of the freezes began that aren't thawed, or the queue was marked dying.
    pub frozen_since: Option<Instant>,
    /// Number of tags that are free now: no caller has them, and no request.
    pub free_tags: u64,
    /// Number of tags that are biased now: their next request enters by a store and a load.
    pub biased: u64,
    /// Whether `membarrier(2)` orders the steps of biased tags with those of a freeze. If not, each of these steps is
    /// sequentially consistent.
    pub membarrier: bool,
}

impl Stats {
    /// Adds a drain that took this long.
    fn drains(&mut self, took: Duration) {
        self.draining += took;
        self.longest_drain = self.longest_drain.max(took);
    }
}

/// The counts under the lock.
#[derive(Default)]
pub(crate) struct Counts {
    pub(crate) stats: Stats,
    /// Kills of the gate.
    pub(crate) kills: u64,
    /// When the first of the nested freezes began that aren't thawed.
    since: Option<Instant>,
    is_draining: bool,
}

impl Counts {
    /// The first of nested freezes begins.
    pub(crate) fn begins(&mut self, is_drained: bool) {
        self.kills += 1;
        self.since = Some(Instant::now());
        self.is_draining = !is_drained;
    }

    /// The queue is drained, unless it was live again by then.
    pub(crate) fn drained(&mut self) {
        if let (true, Some(since)) = (self.is_draining, self.since) {
            self.is_draining = false;
            self.stats.drains(since.elapsed());
        }
    }

    /// The last of nested freezes is thawed.
    pub(crate) fn ends(&mut self) {
        let took = self.since.take().map_or(Duration::ZERO, |since| since.elapsed());
        if mem::take(&mut self.is_draining) {
            self.stats.abandoned += 1;
            self.stats.drains(took);
        }
        self.stats.frozen += took;
    }

    /// The queue is marked dying, frozen or not: from now on its time doesn't count as frozen.
    pub(crate) fn dies(&mut self) {
        self.stats.frozen += self.since.map_or(Duration::ZERO, |since| since.elapsed());
    }

    /// The counts so far.
    pub(crate) fn so_far(&self, is_dying: bool) -> Stats {
        let mut stats = Stats { frozen_since: self.since, ..self.stats };
        if let Some(since) = self.since {
            let took = since.elapsed();
            if self.is_draining {
                stats.drains(took);
            }
            if !is_dying {
                stats.frozen += took;
            }
        }
        stats
    }
}
