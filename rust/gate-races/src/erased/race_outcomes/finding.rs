// Erased from crates/race_outcomes/src/finding.rt by tools/erase: edit that file.
//! The search for all outcomes of a course.

use crate::erased::percpu_core::Memory;
use crate::erased::race_outcomes::ending::ends;
use crate::erased::race_outcomes::fault::SearchFault;
use crate::erased::race_outcomes::gathered::Gathered;
use crate::erased::race_outcomes::moments::Moments;
use crate::erased::race_outcomes::outcome::Outcomes;
use crate::erased::race_outcomes::search::all_moments;
use crate::erased::race_outcomes::telling::Telling;
use crate::erased::race_outcomes::watch::Watch;

/// Returns all outcomes of the course: the accounts that it may have when nothing may come next. Each outcome is in the list once,
/// with a shortest schedule that leads to it, and among these one with the fewest switches of actor. Outcomes are
/// ordered by the length of their schedules, then by the number of switches, then in the order in which the search meets them.
///
/// Refuses with `States` if `most` is given and the search would keep more moments; then the course has more.
/// The only other refusal is `Memory`: an allocation was refused, or there are 2^64 moments. It reports to `watch` how
/// far the search is.
pub fn outcomes<C: Telling, W: Watch>(
    course: &C,
    most: Option<u64>,
    watch: &mut W,
) -> Result<Outcomes<C>, SearchFault> {
    let moments = all_moments(course, most, watch)?;
    let found = outcomes_of(course, &moments)?;
    Ok(found)
}

/// The outcomes of a course, given the moments that a search kept.
///
/// # Preconditions
///
/// - `AreTheMoments(rules(course), moments.points)`: each point in the list is reached by a schedule, each point
///   that is reached is represented, and no point is in the list twice.
/// - `AreTheWays(rules(course), moments)`: each point has a way; each point that a schedule reaches is represented
///   by a point whose way isn't longer, and if it is as long, has no more switches; and points with shorter ways
///   come first.
fn outcomes_of<C: Telling>(course: &C, moments: &Moments<C>) -> Result<Outcomes<C>, Memory> {
    course.is_sound();
    course.tells_soundly();
    let places = ends(course, moments)?;
    let exchanges = course.exchanges()?;
    let mut gathered = Gathered::new(course);
    for at in &places {
        let first = gathered.len();
        let with_end = gathered.with_end(moments, *at)?;
        gathered = with_end.closed(exchanges.as_slice(), first)?;
    }
    Ok(Outcomes { list: gathered.into_list() })
}
