// Erased from crates/races_run/src/actor_line.rt by tools/erase: edit that file.
//! The line of an actor.

use crate::erased::gate_replay::is_all_digits;
use crate::erased::line_text::{ParseFault, ScriptFault, Why, Words, at_line, is_word, short_number};
use crate::erased::races_run::control_call::control_calls;
use crate::erased::races_run::draft::Draft;
use crate::erased::races_run::pass_call::pass_calls;

/// Appends the calls of a line to those of its actor. A first word of digits alone is the number of a pass, however long it is, and
/// `c` is the control.
pub(crate) fn actor(line: u32, draft: &mut Draft, mut words: Words<'_>) -> Result<(), ScriptFault> {
    let first = at_line(line, words.next().ok_or(Why::UnknownWord))?;
    if is_all_digits(first) {
        let pass = at_line(line, short_number(first, 0, draft.last_pass()))?;
        let calls = pass_calls(line, words)?;
        draft.add_of_pass(pass, calls.as_slice())?;
        Ok(())
    } else if is_word(first, "c") {
        let calls = control_calls(line, words)?;
        draft.add_of_control(calls.as_slice())?;
        Ok(())
    } else {
        Err(ScriptFault::Parse(ParseFault { line, why: Why::UnknownWord }))
    }
}
