// Erased from crates/race_outcomes/src/laws.rt by tools/erase: edit that file.
//! Laws of every course, of every schedule of a race and of every list of its outcomes, apart from the code.

use crate::erased::race_world::Course;

/// A schedule whose events are all exchanged is a schedule, and leads to the exchanged moment. The contract is the law;
/// the function does nothing.
pub fn schedules_are_carried<C: Course>(course: &C) {
    course.is_sound();
}
