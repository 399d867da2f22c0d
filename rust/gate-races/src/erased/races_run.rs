// Erased from crates/races_run/src/lib.rt by tools/erase: edit that file.
//! From the bytes of a reader to the bytes of a writer: races, and everything that may happen in them.
//!
//! A race is text. Its first line names the format, its second a world, as in a schedule: the slots, the passes, how
//! the gate starts, its kills and its guarded words. Each further line gives calls to an actor, a pass or the control, with `/`
//! between them. [`parse_race`] returns the race that a text describes, or the first fault of the text.
//!
//! [`shown`] prints for each outcome the answers to the calls, and a shortest schedule that leads to it, with the reply
//! after each step. The replies, and the state at the end, are on lines that begin with `#`, which the reader of a
//! schedule skips. So a printed schedule can be given to `blkq replay`, which prints the same replies; `printed_steps_read_back` is
//! the law. [`written`] prints the outcomes so, or one line for each.
//!
//! [`outcomes_bytes`] reads a race and writes all its outcomes. Data flows one way: `counted_io` reads, [`outcomes_text`] parses, searches
//! with `race_outcomes` and prints, and `counted_io` writes. [`command`] is the program, and [`Progress`] shows on a terminal how far a
//! search is.

mod actor_line;
mod answer;
mod answers;
mod arguments;
mod awaited;
mod call_words;
mod control_call;
mod draft;
mod fault;
mod pass_call;
mod printing;
mod program;
mod progress;
mod race_parser;
mod run;
mod schedule;
mod showing;
mod steps;
mod summary;
mod world;
mod writing;

pub use crate::erased::race_outcomes::{NoWatch, Watch};
pub use answer::outcomes_text;
pub use arguments::{Task, requested};
pub use fault::Fault;
pub use printing::shown;
pub use program::{command, refuse_words};
pub use progress::Progress;
pub use race_parser::parse_race;
pub use run::{MOST_READ, outcomes_bytes};
pub use showing::{Shown, Waits};
pub use writing::{Form, written};
