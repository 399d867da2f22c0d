// Erased from crates/play_calls/src/rows.rt by tools/erase: edit that file.
//! A text of calls, and a line for the answer to each.

use crate::answer::Answer;
use crate::gate::{GatePlayer, ask_control};
use crate::gate_calls::{of_control, of_pass};
use crate::queue::{QueuePlayer, ask_freezer};
use crate::queue_calls::{of_freezer, of_tag};
use trials::erased::fallible::TryVec;
use trials::erased::freeze_queue::Limits;
use trials::erased::gate_replay::{is_all_digits, next_world};
use trials::erased::line_text::{
    ParseFault, ScriptFault, Statements, Why, Words, at_line, is_word, long_number, push_text, short_number,
};

/// The gate or the queue on which a text makes its calls, until it ends.
enum Player {
    Gate(Option<GatePlayer>),
    Queue(Option<QueuePlayer>),
}

/// Returns whether these words are `calls 1`.
fn is_version(mut words: Words<'_>) -> bool {
    let name = words.next().is_some_and(|word| is_word(word, "calls"));
    let number = words.next().is_some_and(|word| is_word(word, "1"));
    name && number && words.next().is_none()
}

/// Returns the fault of a line.
fn refused(line: u32, why: Why) -> ScriptFault {
    ScriptFault::Parse(ParseFault { line, why })
}

/// Takes the line of the version.
fn take_version(text: &mut Statements<'_>) -> Result<(), ScriptFault> {
    let (line, words) = text.next_or(Why::NoVersion)?;
    if is_version(words) { Ok(()) } else { Err(refused(line, Why::NoVersion)) }
}

/// Returns whether the line after the version begins with `queue`.
fn is_of_queue(bytes: &[u8]) -> Result<bool, ScriptFault> {
    let mut text = Statements::new(bytes)?;
    take_version(&mut text)?;
    let (_line, mut words) = text.next_or(Why::NoWorld)?;
    Ok(words.next().is_some_and(|word| is_word(word, "queue")))
}

/// Returns the gate of the line `world SLOTS PASSES START 0 [WORD ..]`.
fn first_gate(text: &mut Statements<'_>) -> Result<GatePlayer, ScriptFault> {
    let world = next_world(text)?;
    match (world.slots, world.passes) {
        (slots @ 1..=512, passes @ 1..=1_024) => {
            let words = world.words.as_slice();
            Ok(GatePlayer::new(slots, passes, world.start, words)?)
        }
        _ => Err(refused(2, Why::OutOfRange)),
    }
}

/// Returns the queue of the line `queue SLOTS TAGS HARDWARE`.
fn first_queue(text: &mut Statements<'_>) -> Result<QueuePlayer, ScriptFault> {
    let (line, mut words) = text.next_or(Why::NoWorld)?;
    let _queue = words.next();
    let numbers = numbers(line, words)?;
    let [slots @ 1..=512, tags @ 1..=1_023, hardware @ 1..=65_535] = numbers.as_slice() else {
        return Err(refused(line, Why::OutOfRange));
    };
    let limits = Limits::start(*hardware as u32).map_err(|_refused| refused(line, Why::OutOfRange))?;
    let made = QueuePlayer::new(*slots as u32, *tags as u32, limits);
    made.map_err(|_refused| ScriptFault::Memory)
}

/// Returns the gate or the queue with which a text begins.
fn first_player(bytes: &[u8], text: &mut Statements<'_>) -> Result<Player, ScriptFault> {
    let is_of_queue = is_of_queue(bytes)?;
    take_version(text)?;
    Ok(if is_of_queue { Player::Queue(Some(first_queue(text)?)) } else { Player::Gate(Some(first_gate(text)?)) })
}

/// Returns the numbers after a call's name.
fn numbers(line: u32, words: Words<'_>) -> Result<Vec<u64>, ScriptFault> {
    let mut all = Vec::new();
    for word in words {
        all.try_push(at_line(line, long_number(word, 0, u64::MAX))?)?;
    }
    Ok(all)
}

/// Returns the call that a line spells, or the fault of a word that names none.
fn known<T>(line: u32, asked: Option<T>) -> Result<T, ScriptFault> {
    asked.ok_or(refused(line, Why::UnknownWord))
}

/// Returns the number of a pass or a tag.
fn number_of(line: u32, actor: &[u8]) -> Result<u32, ScriptFault> {
    if is_all_digits(actor) {
        Ok(at_line(line, short_number(actor, 0, u32::MAX))?)
    } else {
        Err(refused(line, Why::UnknownWord))
    }
}

/// Appends the answer to a call of a gate's control, `c`, or of a pass.
fn ask_gate(
    gate: &mut Option<GatePlayer>,
    out: &mut Vec<u8>,
    line: u32,
    actor: &[u8],
    name: &[u8],
    numbers: &[u64],
) -> Result<(), ScriptFault> {
    if is_word(actor, "c") {
        return Ok(ask_control(gate, out, known(line, of_control(name, numbers))?)?);
    }
    let pass = number_of(line, actor)?;
    let call = known(line, of_pass(name, numbers))?;
    let answer = match gate {
        Some(player) => player.ask_pass(pass, call),
        None => Answer::PassedOver,
    };
    Ok(answer.append_to(out)?)
}

/// Appends the answer to a call of a queue's freezer, `f`, or of a tag.
fn ask_queue(
    queue: &mut Option<QueuePlayer>,
    out: &mut Vec<u8>,
    line: u32,
    actor: &[u8],
    name: &[u8],
    numbers: &[u64],
) -> Result<(), ScriptFault> {
    if is_word(actor, "f") {
        return Ok(ask_freezer(queue, out, known(line, of_freezer(name, numbers))?)?);
    }
    let tag = number_of(line, actor)?;
    let call = known(line, of_tag(name, numbers))?;
    match queue {
        Some(player) => player.ask_tag(out, tag, call)?,
        None => Answer::PassedOver.append_to(out)?,
    }
    Ok(())
}

/// Appends the answer to the call of a line.
fn play(player: &mut Player, out: &mut Vec<u8>, line: u32, said: Result<Words<'_>, Why>) -> Result<(), ScriptFault> {
    let mut words = at_line(line, said)?;
    let actor = at_line(line, words.next().ok_or(Why::UnknownWord))?;
    let name = at_line(line, words.next().ok_or(Why::MissingWord))?;
    let numbers = numbers(line, words)?;
    match player {
        Player::Gate(gate) => ask_gate(gate, out, line, actor, name, &numbers)?,
        Player::Queue(queue) => ask_queue(queue, out, line, actor, name, &numbers)?,
    }
    Ok(push_text(out, "\n")?)
}

/// Returns the answers of the calls of a text, a line for each, or the first fault of the text.
pub(crate) fn answered(bytes: &[u8]) -> Result<Vec<u8>, ScriptFault> {
    let mut text = Statements::new(bytes)?;
    let mut player = first_player(bytes, &mut text)?;
    let mut out = Vec::new();
    for _line in 0..u32::MAX {
        let Some((line, said)) = text.next() else {
            break;
        };
        play(&mut player, &mut out, line, said)?;
    }
    Ok(out)
}
