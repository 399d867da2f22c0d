// Erased from crates/races_run/src/writing.rt by tools/erase: edit that file.
//! The forms of the answer to a race.

use crate::erased::percpu_core::Memory;
use crate::erased::race_outcomes::Outcomes;
use crate::erased::races_run::printing::shown;
use crate::erased::races_run::showing::Shown;
use crate::erased::races_run::summary::push_summaries;

/// A form of the answer to a race.
#[derive(Clone, Copy, Debug, PartialEq, Eq)]
pub enum Form {
    /// The race's outcomes, each with a schedule.
    Outcomes,
    /// A line for each outcome.
    Summary,
}

// A line for each outcome.
fn summary<C: Shown>(course: &C, found: &Outcomes<C>) -> Result<Vec<u8>, Memory> {
    let mut out = Vec::new();
    push_summaries(&mut out, course, found.as_slice())?;
    Ok(out)
}

/// Returns the answer to a race in this form, by its outcomes: docs/races/README.md has each form.
///
/// Refuses only if an allocation was refused.
pub fn written<C: Shown>(form: Form, course: &C, found: &Outcomes<C>) -> Result<Vec<u8>, Memory> {
    match form {
        Form::Outcomes => shown(course, found),
        Form::Summary => summary(course, found),
    }
}
