// Erased from crates/race_outcomes/src/outcome.rt by tools/erase: edit that file.
//! Outcomes of a course.

use crate::erased::race_world::Course;

/// An outcome of a course: an end with its account, and a schedule that leads there. In contracts it is a `Found`.
pub struct Outcome<C: Course> {
    pub(crate) end: C::Moment,
    pub(crate) schedule: Vec<C::Event>,
}

impl<C: Course> Outcome<C> {
    /// The end that the schedule leads to, which has the answers to the calls.
    pub fn end(&self) -> &C::Moment {
        &self.end
    }

    /// A shortest schedule that leads to the outcome, with the fewest switches of actor.
    pub fn schedule(&self) -> &[C::Event] {
        self.schedule.as_slice()
    }
}

/// All outcomes of a course, each of them once, ordered by the length of their schedules and then by the number of
/// switches of actor. In contracts they are `Findings`.
pub struct Outcomes<C: Course> {
    pub(crate) list: Vec<Outcome<C>>,
}

impl<C: Course> Outcomes<C> {
    /// The outcomes.
    pub fn as_slice(&self) -> &[Outcome<C>] {
        self.list.as_slice()
    }
}
