// Erased from crates/race_outcomes/src/lib.rt by tools/erase: edit that file.
//! All moments of a course, and its outcomes: everything that may happen, and a shortest schedule for each outcome.
//!
//! A [`Course`] of `race_world` defines the moment at which it begins, which events may come next at a moment, and the moment that
//! each of them leads to. [`all_moments`] goes from one moment to those that may come next, and so on, until it meets no
//! moment that it hasn't seen. Moments are compared whole. Exchanges may lead from one moment to another, for example
//! if two actors do the same: then the search keeps one moment that represents both. Its contract says that each moment
//! in the list is reached by a schedule, that each moment that a schedule reaches is represented in it, and that no moment
//! is in it twice. A course with more moments than the search may keep is refused. A [`Watch`] gets reports of how far
//! a search is. [`ends`] returns the moments after which nothing comes, and [`schedule_to`] returns a schedule to a moment:
//! a shortest schedule, and among these one with the fewest switches from one actor to another.
//!
//! If a course is [`Telling`], its moments have accounts: the answers to the calls of each actor so far, and the
//! figures of the gate. A race is such a course. [`outcomes`] goes over the ends of a course and gathers their accounts. Ends with
//! equal accounts are one outcome. The search keeps one of the ends that differ by exchanges, so `outcomes` makes each such exchange.
//! Its contract says that the outcome of each run that comes to an end is in the list, that each outcome is in it once,
//! and that no schedule that leads to an outcome is shorter than the schedule in the list.

mod account;
mod ending;
mod exchanges;
mod fault;
mod finding;
mod gathered;
mod laws;
mod moments;
mod outcome;
mod positions;
mod race_account;
mod race_telling;
mod schedule;
mod search;
mod telling;
mod told;
mod turning;
mod watch;
mod way;

pub use crate::erased::race_world::Course;
pub use account::{Figures, GateTold};
pub use ending::ends;
pub use fault::SearchFault;
pub use finding::outcomes;
pub use laws::schedules_are_carried;
pub use moments::Moments;
pub use outcome::{Outcome, Outcomes};
pub use positions::Positions;
pub use schedule::schedule_to;
pub use search::all_moments;
pub use telling::Telling;
pub use told::{PassTold, Told};
pub use watch::{NoWatch, Watch};
pub use way::{Last, Step, Way};
