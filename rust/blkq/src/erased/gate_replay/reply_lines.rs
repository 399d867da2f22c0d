// Erased from crates/gate_replay/src/reply_lines.rt by tools/erase: edit that file.
//! The lines that a replay writes.

use crate::erased::fallible::AllocError;
use crate::erased::line_text::{push_named, push_number, push_text};
use crate::erased::percpu_core::{NotEnabled, Reply, World};
use crate::erased::percpu_words::{is_dead, is_zero, value};

fn push_marks(out: &mut Vec<u8>, word: u64) -> Result<(), AllocError> {
    if is_zero(word) {
        push_text(out, "zero ")
    } else if is_dead(word) {
        push_text(out, "dead ")
    } else {
        push_text(out, "live ")
    }
}

fn push_shared(out: &mut Vec<u8>, word: u64) -> Result<(), AllocError> {
    push_marks(out, word)?;
    push_number(out, value(word))
}

fn push_signed(out: &mut Vec<u8>, number: i64) -> Result<(), AllocError> {
    if number < 0 {
        push_text(out, "-")?;
    }
    push_number(out, number.unsigned_abs())
}

/// Appends this text and then a delta. If memory is refused, a part of it may have been appended.
pub fn push_delta(out: &mut Vec<u8>, text: &str, delta: i64) -> Result<(), AllocError> {
    push_text(out, text)?;
    push_signed(out, delta)
}

fn push_reply_text(out: &mut Vec<u8>, reply: Reply) -> Result<(), AllocError> {
    match reply {
        Reply::Given => push_text(out, "given"),
        Reply::Refused => push_text(out, "refused"),
        Reply::NotLast => push_text(out, "not last"),
        Reply::ToMark => push_text(out, "to mark"),
        Reply::Last => push_text(out, "last"),
        Reply::Lost => push_text(out, "lost"),
        Reply::Won => push_text(out, "won"),
        Reply::Opened(delta) => push_delta(out, "open ", delta),
        Reply::Closed => push_text(out, "closed"),
        Reply::Collected(delta) => push_delta(out, "closed ", delta),
        Reply::Shared(word) => push_shared(out, word),
        Reply::Number(number) => push_number(out, number),
        Reply::Done => push_text(out, "ok"),
    }
}

/// Appends the line of a step that was taken. If memory is refused, a part of it may have been appended.
pub fn push_reply(out: &mut Vec<u8>, reply: Reply) -> Result<(), AllocError> {
    push_reply_text(out, reply)?;
    push_text(out, "\n")
}

fn push_why(out: &mut Vec<u8>, why: NotEnabled) -> Result<(), AllocError> {
    match why {
        NotEnabled::NoSuchActor => push_text(out, "no such actor"),
        NotEnabled::NoSuchSlot => push_text(out, "no such slot"),
        NotEnabled::WrongPhase => push_text(out, "wrong phase"),
        NotEnabled::NothingHeld => push_text(out, "nothing held"),
        NotEnabled::MidCall => push_text(out, "mid call"),
        NotEnabled::HeldFull => push_text(out, "held full"),
        NotEnabled::WornOut => push_text(out, "worn out"),
        NotEnabled::NoSuchWord => push_text(out, "no such word"),
        NotEnabled::BadAmount => push_text(out, "bad amount"),
        NotEnabled::StillHeld => push_text(out, "still held"),
    }
}

/// Appends the line of a step that isn't enabled, which is on this line of the schedule.
pub(crate) fn push_stuck(out: &mut Vec<u8>, line: u32, why: NotEnabled) -> Result<(), AllocError> {
    push_text(out, "stuck ")?;
    push_number(out, u64::from(line))?;
    push_text(out, " ")?;
    push_why(out, why)?;
    push_text(out, "\n")
}

/// Appends the line of a world in which all steps were taken. If memory is refused, a part of it may have been appended.
pub fn push_end(out: &mut Vec<u8>, world: &World) -> Result<(), AllocError> {
    push_text(out, "end ")?;
    push_shared(out, world.shared())?;
    push_named(out, " front ", world.front())?;
    push_named(out, " kills ", world.kills())?;
    push_named(out, " releases ", world.releases())?;
    push_named(out, " held ", world.held_by_all())?;
    push_text(out, "\n")
}
