// Erased from crates/races_run/src/program.rt by tools/erase: edit that file.
//! The program, over any reader and writers.

use crate::erased::counted_io::Counted;
use crate::erased::race_outcomes::Watch;
use crate::erased::races_run::arguments::{Task, requested};
use crate::erased::races_run::fault::Fault;
use crate::erased::races_run::run::outcomes_bytes;
use crate::erased::races_run::writing::Form;
use crate::erased::streams::WriteLine;
use std::io::{self, ErrorKind, Read, Write};

/// The usage line.
const USAGE: &str = "usage: gate_races [--summary] [--states N], with a race on standard input";

/// The status if the answer wasn't written for any reason other than the input.
const NOT_ANSWERED: u8 = 4;

/// Answers the race in `reader`. Returns the program's status, and writes a line to `errors` if it isn't 0.
fn outcomes_reported<R: Read, W: Write, E: Write, H: Watch>(
    form: Form,
    most: Option<u64>,
    reader: &mut Counted<R>,
    writer: &mut Counted<W>,
    errors: &mut E,
    watch: &mut H,
) -> u8 {
    match outcomes_bytes(reader, writer, form, most, watch) {
        Ok(()) => 0,
        Err(fault) => {
            let _ = errors.writeln(fault);
            fault.status()
        }
    }
}

/// Writes to `writer` the outcomes of the race in `reader`, in the form that `args`, the program's arguments, ask for, and returns the
/// program's status: 0 if they were written. Status 2 or 4 comes with a line to `errors`: 2 if
/// the input is no race; 4 if reading, writing or memory was refused, if the search would keep more states than `args`
/// allow by `--states`, or if the arguments ask for something unknown. They are checked before anything is read. If `errors`
/// fails, the line is lost and the status stays. It reports to `watch` how far the search is.
pub fn command<R: Read, W: Write, E: Write, H: Watch>(
    args: &[String],
    reader: &mut Counted<R>,
    writer: &mut Counted<W>,
    errors: &mut E,
    watch: &mut H,
) -> u8 {
    match requested(args) {
        Task::Answer(form, most) => outcomes_reported(form, most, reader, writer, errors, watch),
        Task::Usage => {
            let _ = errors.writeln(USAGE);
            NOT_ANSWERED
        }
    }
}

/// Reports that the arguments couldn't be read, and returns the program's status: memory was refused, or one of them
/// isn't text, so that they ask for something unknown.
pub fn refuse_words<E: Write>(errors: &mut E, why: &io::Error) -> u8 {
    let _ = if why.kind() == ErrorKind::OutOfMemory { errors.writeln(Fault::Memory) } else { errors.writeln(USAGE) };
    NOT_ANSWERED
}
