// Erased from crates/blkq_run/src/program.rt by tools/erase: edit that file.
//! The program, over any reader and writers.

use crate::erased::blk_workers::{Config, NoStall, Stall};
use crate::erased::blkq_run::fault::Fault;
use crate::erased::blkq_run::replay_report::replay_reported;
use crate::erased::blkq_run::run::run_bytes;
use crate::erased::counted_io::Counted;
use crate::erased::line_text::{Why, short_number};
use crate::erased::streams::WriteLine;
use std::io::{self, ErrorKind, Read, Write};

/// What the arguments ask for.
#[derive(Clone, Copy, Debug, PartialEq, Eq)]
pub enum Task {
    /// Run the script that the input has.
    Run(Config),
    /// Replay the schedule that the input has.
    Replay,
    /// Print the usage.
    Usage,
}

/// Reads `word` as a script reads a number.
fn number(word: &str) -> Result<u32, Why> {
    short_number(word.as_bytes(), 0, u32::MAX)
}

/// Returns the sizes of a run that three words spell, if they are within the limits.
fn run_of(workers: &str, slots: &str, tags: &str) -> Option<Config> {
    match (number(workers), number(slots), number(tags)) {
        (Ok(workers), Ok(slots), Ok(tags)) => Config::new(workers, slots, tags),
        _ => None,
    }
}

/// Returns what `words`, the arguments after the program's name, ask for: `run`, alone or with three numbers, or `replay`
/// alone. Anything else is `Usage`: other words, another number of words, a word that isn't a number of 1 to 20 digits, or
/// a number outside the limits.
pub fn requested(words: &[String]) -> Task {
    match words {
        [word] if word.as_str() == "run" => Task::Run(Config::default()),
        [word] if word.as_str() == "replay" => Task::Replay,
        [word, workers, slots, tags] if word.as_str() == "run" => {
            match run_of(workers.as_str(), slots.as_str(), tags.as_str()) {
                Some(config) => Task::Run(config),
                None => Task::Usage,
            }
        }
        _ => Task::Usage,
    }
}

/// The usage.
const USAGE: &str = "usage: blkq run [WORKERS SLOTS TAGS] or blkq replay";

/// Exit status if the output wasn't written, for any reason except the input.
const NOT_RUN: u8 = 4;

/// Runs the script that `reader` has and returns the exit status; writes a line to `errors` if it isn't 0.
fn run_reported<R: Read, W: Write, E: Write>(
    config: Config,
    reader: &mut Counted<R>,
    writer: &mut Counted<W>,
    errors: &mut E,
    stall: &impl Stall,
) -> u8 {
    match run_bytes(reader, writer, config, stall) {
        Ok(()) => 0,
        Err(fault) => {
            let _ = errors.writeln(fault);
            fault.status()
        }
    }
}

/// Does what `args`, the arguments after the program's name, ask for, and returns the exit status:
///
/// - 0: the output for what `reader` has was written to `writer`.
/// - 2: the input isn't a script or a schedule.
/// - 3: requests of the script overlap; or a replay ended at a step that isn't enabled, as its last line says.
/// - 4: reading or writing failed, memory was refused, a thread couldn't be started, or the arguments are wrong. With wrong
///   arguments nothing is read.
///
/// Writes a line to `errors` if the status isn't 0, except for a replay of status 3. If `errors` fails, that line is lost and the
/// status stays. Without numbers a run has 4 workers, 8 slots and 16 tags.
pub fn command<R: Read, W: Write, E: Write>(
    args: &[String],
    reader: &mut Counted<R>,
    writer: &mut Counted<W>,
    errors: &mut E,
) -> u8 {
    command_held(args, reader, writer, errors, &NoStall)
}

/// Like [`command`], but `stall` may hold the run at each of its points, for tests that observe the workers.
pub fn command_held<R: Read, W: Write, E: Write>(
    args: &[String],
    reader: &mut Counted<R>,
    writer: &mut Counted<W>,
    errors: &mut E,
    stall: &impl Stall,
) -> u8 {
    match requested(args) {
        Task::Run(config) => run_reported(config, reader, writer, errors, stall),
        Task::Replay => replay_reported(reader, writer, errors),
        Task::Usage => {
            let _ = errors.writeln(USAGE);
            NOT_RUN
        }
    }
}

/// Reports that the arguments couldn't be read, because memory was refused or one of them isn't UTF-8, and returns the exit status.
pub fn refuse_words<E: Write>(errors: &mut E, why: &io::Error) -> u8 {
    let _ = if why.kind() == ErrorKind::OutOfMemory { errors.writeln(Fault::Memory) } else { errors.writeln(USAGE) };
    NOT_RUN
}
