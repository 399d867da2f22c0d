//! All outcomes of a race.
use crate::erased::counted_io::Counted;
use crate::erased::races_run::{Form, NoWatch, outcomes_bytes};
use crate::error::RaceError;
use blkq::text::Text;

/// Goes through all orders of the atomic steps of a race, and returns its outcomes.
///
/// An outcome is what the calls return, and a shortest schedule that leads there. [`blkq::replay()`] accepts the schedule unchanged if it has
/// at most 1,048,576 bytes, which is also the maximum size of a race. The program `gate_races` writes the same.
///
/// The search keeps all states that it has seen, so a race of many calls takes much memory. Passes that make equal calls may change
/// places in any state; of the states that differ only by that, one is kept.
///
/// # Errors
///
/// Returns [`RaceError`]. If a race has more states than there is memory for, the error is that of refused memory.
///
/// # Examples
///
/// ```
/// // A request on a device that is removed meanwhile: in each outcome, exactly one of the two is last.
/// let race = b"races 1\nworld 1 1 atomic 0\n0 live 0 / put 0 1\nc kill\n";
/// let outcomes = String::from_utf8(gate_races::outcomes(race)?).unwrap();
/// let answers: Vec<&str> = outcomes.split("outcome ").skip(1).collect();
/// assert_eq!(answers.len(), 4);
/// for answer in answers {
///     let calls: Vec<&str> = answer.lines().skip(1).take(2).collect();
///     assert_eq!(calls.concat().matches("last").count() - calls.concat().matches("not last").count(), 1);
/// }
/// # Ok::<(), gate_races::RaceError>(())
/// ```
pub fn outcomes(race: &[u8]) -> Result<Vec<u8>, RaceError> {
    let mut text = Text::default();
    outcomes_bytes(&mut Counted::new(race), &mut Counted::new(&mut text), Form::Outcomes, None, &mut NoWatch)?;
    Ok(text.0)
}
