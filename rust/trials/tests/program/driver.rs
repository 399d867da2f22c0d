//! The program, played on a table of words, inputs and writers.

use crate::fakes::{Feed, Sink};
use blkq::erased::blk_workers::{NoStall, Stall};
use blkq::erased::blkq_run::command_held;
use blkq::erased::counted_io::Counted;
use std::io::ErrorKind;

/// The words after the program's name, its input, how much the writers take, and the outcome.
pub struct Row {
    pub name: &'static str,
    pub words: &'static str,
    pub input: &'static [u8],
    pub sides: Sides,
    pub status: u8,
    pub out: &'static [u8],
    pub errors: &'static [u8],
}

/// How the reader and the writers do.
#[derive(Clone, Copy)]
pub struct Sides {
    /// Whether the reader fails behind its input.
    pub fails: bool,
    /// How many bytes the writer of the answer takes.
    pub room: usize,
    /// How many bytes the writer of faults takes.
    pub room_for_errors: usize,
}

/// A reader that ends, and writers that take all.
pub const WILLING: Sides = Sides { fails: false, room: usize::MAX, room_for_errors: usize::MAX };

/// A run whose reader and writers do as they should, and that answers nothing to nothing.
pub const WHOLE: Row = Row { name: "", words: "run", input: b"", sides: WILLING, status: 0, out: b"", errors: b"" };

pub fn words(line: &str) -> Vec<String> {
    line.split_whitespace().map(String::from).collect()
}

/// The program's status, and the bytes that it wrote.
pub struct Answer {
    pub status: u8,
    pub out: Vec<u8>,
    pub errors: Vec<u8>,
    /// How often the reader was asked.
    pub reads: u32,
}

/// Calls the program.
pub fn call(line: &str, input: &[u8], sides: Sides) -> Answer {
    call_held(line, input, sides, &NoStall)
}

/// Calls the program, whose run this holds at its points.
pub fn call_held(line: &str, input: &[u8], sides: Sides, stall: &impl Stall) -> Answer {
    let args = words(line);
    let mut feed = Feed::new(input);
    if sides.fails {
        feed.failure = Some(ErrorKind::Other);
    }
    let (mut out, mut errors) = (Sink::new(), Sink::new());
    (out.room, errors.room) = (sides.room, sides.room_for_errors);
    let (mut reader, mut writer) = (Counted::new(&mut feed), Counted::new(&mut out));
    let status = command_held(&args, &mut reader, &mut writer, &mut errors, stall);
    Answer { status, out: out.taken, errors: errors.taken, reads: feed.reads }
}

/// The line on standard error if the words ask for no task.
pub const USAGE: &[u8] = b"usage: blkq run [WORKERS SLOTS TAGS] or blkq replay\n";

/// How often the input of a row is read: not at all where its words ask for nothing, else to its end, once, whatever comes
/// of it. It comes whole, and the read behind it is at the end, or fails.
fn reads(row: &Row) -> u32 {
    if row.errors == USAGE { 0 } else { 1 + u32::from(!row.input.is_empty()) }
}

/// Plays each row.
pub fn play_all(rows: &[Row]) {
    for row in rows {
        let answer = call(row.words, row.input, row.sides);
        assert!(answer.status == row.status, "{}", row.name);
        assert!(answer.out.as_slice() == row.out, "{}", row.name);
        assert!(answer.errors.as_slice() == row.errors, "{}", row.name);
        assert!(answer.reads == reads(row), "{}", row.name);
    }
}
