// Erased from crates/gate_races/src/main.rt by tools/erase: edit that file.
//! Everything that may happen in a race of a gate.
//!
//! The program reads a race from standard input: a gate, and the calls of each of its actors. It goes through all orders of their
//! atomic steps, and writes the answers that the calls may get, and a shortest schedule for each outcome. `races_run`
//! does all of this over any reader and writers; this crate passes it the arguments and the standard streams. If standard
//! error is a terminal, a line there shows how far the search is.

use gate_races::erased::counted_io::Counted;
use gate_races::erased::env;
use gate_races::erased::fallible::TryCollect;
use gate_races::erased::races_run::{Progress, command, refuse_words};
use gate_races::erased::streams::{self, IsTerminal};
use std::io;
use std::process::ExitCode;

/// The program's arguments.
fn words() -> io::Result<Vec<String>> {
    Ok(env::args()?.skip(1).try_collected()?)
}

fn main() -> ExitCode {
    let (mut reader, mut writer) = (Counted::new(streams::stdin()), Counted::new(streams::stdout()));
    let mut errors = streams::stderr();
    let is_shown = errors.is_terminal();
    let mut progress = Progress::new(streams::stderr(), is_shown);
    ExitCode::from(match words() {
        Ok(args) => command(&args, &mut reader, &mut writer, &mut errors, &mut progress),
        Err(why) => refuse_words(&mut errors, &why),
    })
}
