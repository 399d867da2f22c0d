// Erased from crates/races_run/src/arguments.rt by tools/erase: edit that file.
//! The task that the arguments ask for.

use crate::erased::line_text::{is_word, long_number};
use crate::erased::races_run::writing::Form;

/// A task of the program.
#[derive(Clone, Copy, Debug, PartialEq, Eq)]
pub enum Task {
    /// Write the outcomes of the race on standard input in this form. The search keeps at most this many states, if a number is
    /// given.
    Answer(Form, Option<u64>),
    /// Print how the program is called.
    Usage,
}

fn is_spelled(word: &String, text: &str) -> bool {
    is_word(word.as_bytes(), text)
}

// The form that the first argument asks for, and the arguments after it.
fn form_in(words: &[String]) -> (Form, &[String]) {
    match words {
        [word, rest @ ..] if is_spelled(word, "--summary") => (Form::Summary, rest),
        _ => (Form::Outcomes, words),
    }
}

// The bound on the states that the arguments set, if any; `None` if the arguments aren't a bound.
fn bound_in(words: &[String]) -> Option<Option<u64>> {
    match words {
        [] => Some(None),
        [word, number] if word.as_str() == "--states" => match long_number(number.as_bytes(), 1, u64::MAX) {
            Ok(most) => Some(Some(most)),
            Err(_) => None,
        },
        _ => None,
    }
}

/// Returns the task that `words`, the arguments, ask for: `--summary` or no word, and then, if the search has to be bounded, `--states`
/// and the maximum number of states that it keeps, from 1. Anything else asks for the usage.
pub fn requested(words: &[String]) -> Task {
    let (form, rest) = form_in(words);
    match bound_in(rest) {
        Some(most) => Task::Answer(form, most),
        None => Task::Usage,
    }
}
