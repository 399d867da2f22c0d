// Erased from crates/blk_workers/src/points.rt by tools/erase: edit that file.
//! The points of a run: how it passes them, and how a test holds it there.

use crate::erased::blk_workers::job::{CompletedJob, Job};
use crate::erased::freeze_queue::{Freezer, Tag};

/// A point that each accepted request, or each drain, passes.
#[derive(Clone, Copy, Debug, PartialEq, Eq)]
pub enum Point {
    /// The submitter has entered the queue for a request, and hasn't pushed it to the workers yet.
    Entered,
    /// A worker has drawn the request.
    Drawn,
    /// A worker has reported the request's completion, and hasn't left the queue yet.
    Answered,
    /// The submitter has drained the queue for a line that drains, before an ordered request or at the end. This point is passed
    /// too if the queue was frozen, and so drained, already.
    Drained,
}

/// Holds a run at its points, for as long as a call of `at` takes. The replies and the disk don't depend on it.
pub trait Stall: Sync {
    /// Called when the run is at `point` with the accepted request `number`, counted from 0; at `Drained`, after `number` accepted
    /// requests.
    fn at(&self, number: u32, point: Point);
}

/// A stall that holds nothing.
#[derive(Clone, Copy, Debug, PartialEq, Eq)]
pub struct NoStall;

impl Stall for NoStall {
    fn at(&self, _number: u32, _point: Point) {}
}

/// Shows that a request of the run `J` was at a point. Only the run's points make it, and the request's next step takes it.
pub(crate) struct Passed {
    number: u32,
    #[allow(dead_code)] // only proofs read it
    point: Point,
}

/// The points of the run `J`, and the stall that is called at each. Nothing else of a run calls the stall.
///
/// `run_checked` makes them, with the caller's stall. `new` is of `Brand` alone, so a function for every run `J` can't make others.
pub(crate) struct RunPoints<'a, S> {
    stall: &'a S,
}

impl<'a, S> RunPoints<'a, S> {
    /// Returns the points of a run with this stall.
    pub(crate) fn new(stall: &'a S) -> RunPoints<'a, S> {
        RunPoints { stall }
    }
}

impl<'a, S: Stall> RunPoints<'a, S> {
    // Passes this point with this request, by a call of the stall. Each point of a request is passed here.
    fn pass(&self, number: u32, point: Point) -> Passed {
        self.stall.at(number, point);
        Passed { number, point }
    }

    /// Passes `Entered`: the request of this number has entered with this tag. No job has the tag yet, so the request isn't pushed.
    ///
    /// # Preconditions
    ///
    /// - `tag.entered()` is `true`.
    pub(crate) fn pass_entered(&self, number: u32, tag: &Tag) -> Passed {
        debug_assert!(tag.entered());
        self.pass(number, Point::Entered)
    }

    /// Passes `Drawn`: a worker has drawn this job.
    ///
    /// # Preconditions
    ///
    /// - `number` is `job.token.number`.
    pub(crate) fn pass_drawn(&self, number: u32, _job: &Job) -> Passed {
        self.pass(number, Point::Drawn)
    }

    /// Passes `Answered`: the completion of this job is reported, and its tag is still entered.
    ///
    /// # Preconditions
    ///
    /// - `number` is `job.acknowledgement.number`.
    pub(crate) fn pass_answered(&self, number: u32, _job: &CompletedJob) -> Passed {
        self.pass(number, Point::Answered)
    }
}

/// The drains whose points the run `J` has passed.
///
/// `run_checked` makes them, as it makes [`RunPoints`].
pub(crate) struct DrainPoints {
    count: u64,
    after: u32,
}

impl DrainPoints {
    /// No drain has been passed.
    pub(crate) fn new() -> DrainPoints {
        DrainPoints { count: 0, after: 0 }
    }
}

impl DrainPoints {
    /// Passes `Drained`: the queue of this freezer is drained, after `after` accepted requests.
    ///
    /// # Preconditions
    ///
    /// - `freezer.depth()` is at least 1.
    /// - `freezer.drained` is `true`.
    pub(crate) fn pass<S: Stall>(&mut self, points: &RunPoints<'_, S>, freezer: &Freezer, after: u32) {
        debug_assert!(0 < freezer.depth());
        let Passed { number, .. } = points.pass(after, Point::Drained);
        self.count = self.count.saturating_add(1);
        self.after = number;
    }
}
