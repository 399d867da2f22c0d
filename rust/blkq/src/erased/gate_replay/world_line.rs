// Erased from crates/gate_replay/src/world_line.rt by tools/erase: edit that file.
//! What the first two lines of a schedule say: its version, and the world.

use crate::erased::fallible::TryVec;
use crate::erased::gate_replay::schedule::GuardedWords;
use crate::erased::line_text::{ScriptFault, Why, Words, at_line, is_word, long_number, short_number};
use crate::erased::percpu_core::{KILL_LIMIT, Start, WORD_LIMIT};

/// Maximum number of slots of a `world`. It belongs to the format `gate 1`; a gate may take more.
const MOST_SLOTS: u32 = 64;

/// Maximum number of passes of a `world`.
const MOST_PASSES: u32 = 64;

/// The world that a line describes.
#[derive(Debug)]
pub struct WorldLine {
    /// Number of slots of the gate, 1 to 64.
    pub slots: u32,
    /// Number of passes of the gate, 1 to 64.
    pub passes: u32,
    pub start: Start,
    /// Number of kills that the gate starts with, 0 to 2^40.
    pub kills: u64,
    pub words: GuardedWords,
}

impl WorldLine {
    // Makes a world of these sizes and these guarded words.
    fn new(sizes: WorldSizes, values: Vec<u64>) -> WorldLine {
        WorldLine {
            slots: sizes.slots,
            passes: sizes.passes,
            start: sizes.start,
            kills: sizes.kills,
            words: GuardedWords::new(values),
        }
    }
}

/// Checks that the line names the version.
pub(crate) fn gate(mut words: Words<'_>) -> Result<(), Why> {
    let name = words.next().ok_or(Why::NoVersion)?;
    let number = words.next().ok_or(Why::NoVersion)?;
    if is_word(name, "gate") && is_word(number, "1") && words.next().is_none() { Ok(()) } else { Err(Why::NoVersion) }
}

// Returns how the world starts.
fn start_said(word: &[u8]) -> Result<Start, Why> {
    if is_word(word, "slots") {
        Ok(Start::Slots)
    } else if is_word(word, "atomic") {
        Ok(Start::Atomic)
    } else if is_word(word, "dead") {
        Ok(Start::Dead)
    } else {
        Err(Why::UnknownWord)
    }
}

/// The words before the guarded ones.
#[derive(Clone, Copy)]
struct SizeWords<'a> {
    slots: &'a [u8],
    passes: &'a [u8],
    start: &'a [u8],
    kills: &'a [u8],
}

// Takes the words before the guarded ones.
fn size_words<'a>(words: &mut Words<'a>) -> Result<SizeWords<'a>, Why> {
    let slots = words.next().ok_or(Why::MissingWord)?;
    let passes = words.next().ok_or(Why::MissingWord)?;
    let start = words.next().ok_or(Why::MissingWord)?;
    let kills = words.next().ok_or(Why::MissingWord)?;
    Ok(SizeWords { slots, passes, start, kills })
}

/// What comes before the guarded words.
#[derive(Clone, Copy)]
struct WorldSizes {
    slots: u32,
    passes: u32,
    start: Start,
    kills: u64,
}

// Takes the slots, the passes, the start and the kills. Leaves the words after them, and checks that there aren't too many.
fn sizes(words: &mut Words<'_>) -> Result<WorldSizes, Why> {
    let said = size_words(words)?;
    if words.count_left() > WORD_LIMIT {
        return Err(Why::ExtraWord);
    }
    let slots = short_number(said.slots, 1, MOST_SLOTS)?;
    let passes = short_number(said.passes, 1, MOST_PASSES)?;
    let start = start_said(said.start)?;
    let kills = long_number(said.kills, 0, KILL_LIMIT)?;
    Ok(WorldSizes { slots, passes, start, kills })
}

// Takes the word `world`.
fn named(words: &mut Words<'_>) -> Result<(), Why> {
    let first = words.next().ok_or(Why::NoWorld)?;
    if is_word(first, "world") { Ok(()) } else { Err(Why::NoWorld) }
}

// Reads the guarded words.
fn values(line: u32, mut words: Words<'_>) -> Result<Vec<u64>, ScriptFault> {
    let mut values = Vec::new();
    while let Some(word) = words.next() {
        values.try_push(at_line(line, long_number(word, 0, u64::MAX))?)?;
    }
    Ok(values)
}

/// Returns the world that the words of a line describe.
pub(crate) fn world(line: u32, mut words: Words<'_>) -> Result<WorldLine, ScriptFault> {
    at_line(line, named(&mut words))?;
    world_said(line, words)
}

// Returns the world that the words after `world` describe.
fn world_said(line: u32, mut words: Words<'_>) -> Result<WorldLine, ScriptFault> {
    let sizes = at_line(line, sizes(&mut words))?;
    let values = values(line, words)?;
    Ok(WorldLine::new(sizes, values))
}
