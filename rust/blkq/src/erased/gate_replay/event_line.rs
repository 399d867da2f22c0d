// Erased from crates/gate_replay/src/event_line.rt by tools/erase: edit that file.
//! The step that a line of a schedule describes.

use crate::erased::line_text::{
    Why, Words, is_word, long_number, no_words, number, one_word, short_number, three_words, two_words,
};
use crate::erased::percpu_core::{ControlEvent, Event, HELD_LIMIT, PassEvent};

/// The greatest number that a line gives for what was seen in a slot. Its negative is the smallest.
const MOST_SEEN: i128 = 4_294_967_295;

/// Returns whether a word is of digits alone, as is a word that names a pass.
pub fn is_all_digits(word: &[u8]) -> bool {
    word.iter().all(|byte| b'0' <= *byte && *byte <= b'9')
}

// A step of a pass that takes no number. The count of words is tested before the pass's number.
fn plain(step: PassEvent, pass: &[u8], words: Words<'_>) -> Result<Event, Why> {
    no_words(words)?;
    let pass = short_number(pass, 0, u32::MAX)?;
    Ok(Event::Pass(pass, step))
}

/// A step with one number: the pass, and that number.
struct OneNumber {
    pass: u32,
    number: u32,
}

// Reads the pass, and the one number that is left, from 0 to `most`.
fn one_number(most: u32, pass: &[u8], words: Words<'_>) -> Result<OneNumber, Why> {
    let word = one_word(words)?;
    let pass = short_number(pass, 0, u32::MAX)?;
    let number = short_number(word, 0, most)?;
    Ok(OneNumber { pass, number })
}

fn look(pass: &[u8], words: Words<'_>) -> Result<Event, Why> {
    let OneNumber { pass, number } = one_number(u32::MAX, pass, words)?;
    Ok(Event::Pass(pass, PassEvent::Look(number)))
}

/// An exchange of a slot's delta: the pass, the slot, what was seen in it, and an amount.
struct SlotExchange {
    pass: u32,
    slot: u32,
    seen: i64,
    n: u32,
}

// Reads what a slot is said to hold.
fn delta(word: &[u8]) -> Result<i64, Why> {
    let delta = number(word, -MOST_SEEN, MOST_SEEN, true)?;
    Ok(delta as i64)
}

fn exchange(pass: &[u8], words: Words<'_>) -> Result<SlotExchange, Why> {
    let (slot, seen, n) = three_words(words)?;
    let pass = short_number(pass, 0, u32::MAX)?;
    let slot = short_number(slot, 0, u32::MAX)?;
    let seen = delta(seen)?;
    let n = short_number(n, 0, HELD_LIMIT)?;
    Ok(SlotExchange { pass, slot, seen, n })
}

fn take(pass: &[u8], words: Words<'_>) -> Result<Event, Why> {
    let SlotExchange { pass, slot, seen, n } = exchange(pass, words)?;
    Ok(Event::Pass(pass, PassEvent::Take { slot, seen, n }))
}

fn give(pass: &[u8], words: Words<'_>) -> Result<Event, Why> {
    let SlotExchange { pass, slot, seen, n } = exchange(pass, words)?;
    Ok(Event::Pass(pass, PassEvent::Give { slot, seen, n }))
}

fn get(pass: &[u8], words: Words<'_>) -> Result<Event, Why> {
    let OneNumber { pass, number } = one_number(HELD_LIMIT, pass, words)?;
    Ok(Event::Pass(pass, PassEvent::AddGet(number)))
}

fn sub(pass: &[u8], words: Words<'_>) -> Result<Event, Why> {
    let OneNumber { pass, number } = one_number(HELD_LIMIT, pass, words)?;
    Ok(Event::Pass(pass, PassEvent::Sub(number)))
}

fn load_word(pass: &[u8], words: Words<'_>) -> Result<Event, Why> {
    let OneNumber { pass, number } = one_number(u32::MAX, pass, words)?;
    Ok(Event::Pass(pass, PassEvent::LoadWord(number)))
}

// Reads what follows `add`.
fn addition(pass: &[u8], mut words: Words<'_>) -> Result<Event, Why> {
    let name = words.next().ok_or(Why::MissingWord)?;
    if is_word(name, "try") {
        plain(PassEvent::AddTry, pass, words)
    } else if is_word(name, "live") {
        plain(PassEvent::AddLive, pass, words)
    } else if is_word(name, "get") {
        get(pass, words)
    } else {
        Err(Why::UnknownWord)
    }
}

// Reads what follows the number of a pass.
fn pass_step(pass: &[u8], mut words: Words<'_>) -> Result<Event, Why> {
    let name = words.next().ok_or(Why::MissingWord)?;
    if is_word(name, "add") {
        addition(pass, words)
    } else if is_word(name, "sub") {
        sub(pass, words)
    } else if is_word(name, "undo") {
        plain(PassEvent::Undo, pass, words)
    } else if is_word(name, "mark") {
        plain(PassEvent::Mark, pass, words)
    } else if is_word(name, "look") {
        look(pass, words)
    } else if is_word(name, "take") {
        take(pass, words)
    } else if is_word(name, "give") {
        give(pass, words)
    } else if is_word(name, "shared") {
        plain(PassEvent::LookShared, pass, words)
    } else if is_word(name, "front") {
        plain(PassEvent::LoadFront, pass, words)
    } else if is_word(name, "word") {
        load_word(pass, words)
    } else {
        Err(Why::UnknownWord)
    }
}

// A step of the control that takes no number.
fn alone(step: ControlEvent, words: Words<'_>) -> Result<Event, Why> {
    no_words(words)?;
    Ok(Event::Control(step))
}

fn store(words: Words<'_>) -> Result<Event, Why> {
    let (k, v) = two_words(words)?;
    let k = short_number(k, 0, u32::MAX)?;
    let v = long_number(v, 0, u64::MAX)?;
    Ok(Event::Control(ControlEvent::StoreWord { k, v }))
}

fn join(words: Words<'_>) -> Result<Event, Why> {
    let pass = short_number(one_word(words)?, 0, u32::MAX)?;
    Ok(Event::Control(ControlEvent::Join(pass)))
}

// Reads what follows the `c` of the control.
fn control_step(mut words: Words<'_>) -> Result<Event, Why> {
    let name = words.next().ok_or(Why::MissingWord)?;
    if is_word(name, "dead") {
        alone(ControlEvent::MarkDead, words)
    } else if is_word(name, "close") {
        alone(ControlEvent::Close, words)
    } else if is_word(name, "collect") {
        alone(ControlEvent::Collect, words)
    } else if is_word(name, "confirm") {
        alone(ControlEvent::Confirm, words)
    } else if is_word(name, "base") {
        alone(ControlEvent::DropBase, words)
    } else if is_word(name, "mark") {
        alone(ControlEvent::Mark, words)
    } else if is_word(name, "take") {
        alone(ControlEvent::TakeBase, words)
    } else if is_word(name, "front") {
        alone(ControlEvent::NextFront, words)
    } else if is_word(name, "clear") {
        alone(ControlEvent::ClearDead, words)
    } else if is_word(name, "bias") {
        alone(ControlEvent::AddBias, words)
    } else if is_word(name, "open") {
        alone(ControlEvent::OpenNext, words)
    } else if is_word(name, "store") {
        store(words)
    } else if is_word(name, "join") {
        join(words)
    } else if is_word(name, "shared") {
        alone(ControlEvent::LookShared, words)
    } else {
        Err(Why::UnknownWord)
    }
}

/// Returns the step that the words of a line describe. A first word of digits alone is the number of a pass, however long it is,
/// and `c` is the control.
pub(crate) fn event(mut words: Words<'_>) -> Result<Event, Why> {
    let first = words.next().ok_or(Why::UnknownWord)?;
    if is_all_digits(first) {
        pass_step(first, words)
    } else if is_word(first, "c") {
        control_step(words)
    } else {
        Err(Why::UnknownWord)
    }
}
