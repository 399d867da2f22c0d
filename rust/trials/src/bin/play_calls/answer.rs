// Erased from crates/play_calls/src/answer.rt by tools/erase: edit that file.
//! The answers of all calls, in one form, and the end of a gate or a queue.

use trials::erased::fallible::AllocError;
use trials::erased::freeze_queue::{Enter, FreezeFault, Limits};
use trials::erased::gate_replay::push_delta;
use trials::erased::line_text::{push_named, push_number, push_text};
use trials::erased::percpu_gate::{ControlFault, ExitWhy, Final, Mode, Phase, Put, Revived, Tried};

/// The answer to a call, as its line has it.
#[derive(Clone, Copy)]
pub(crate) enum Answer {
    /// A condition of the call isn't met, so the call isn't made.
    PassedOver,
    Done,
    Text(&'static str),
    Number(u64),
    /// A text, and a number after it.
    Named(&'static str, u64),
    /// The delta of a slot that a kill closes.
    Closed(i64),
    Limits(Limits),
}

impl Answer {
    /// Appends the answer to a text.
    pub(crate) fn append_to(&self, out: &mut Vec<u8>) -> Result<(), AllocError> {
        match self {
            Answer::PassedOver => push_text(out, "passed over"),
            Answer::Done => push_text(out, "ok"),
            Answer::Text(text) => push_text(out, text),
            Answer::Number(number) => push_number(out, *number),
            Answer::Named(text, number) => push_named(out, text, *number),
            Answer::Closed(delta) => push_delta(out, "closed ", *delta),
            Answer::Limits(limits) => {
                push_named(out, "max ", u64::from(limits.max()))?;
                push_named(out, " chunk ", u64::from(limits.chunk()))?;
                push_named(out, " physical ", u64::from(limits.physical()))
            }
        }
    }
}

impl From<()> for Answer {
    fn from(_done: ()) -> Self {
        Answer::Done
    }
}

impl From<bool> for Answer {
    fn from(flag: bool) -> Self {
        Answer::Text(if flag { "yes" } else { "no" })
    }
}

impl From<u64> for Answer {
    fn from(number: u64) -> Self {
        Answer::Number(number)
    }
}

impl From<u32> for Answer {
    fn from(number: u32) -> Self {
        Answer::Number(u64::from(number))
    }
}

impl From<Put> for Answer {
    fn from(put: Put) -> Self {
        Answer::Text(match put {
            Put::NotLast => "not last",
            Put::Last => "last",
        })
    }
}

impl From<Tried> for Answer {
    fn from(tried: Tried) -> Self {
        Answer::Text(match tried {
            Tried::Given => "given",
            Tried::Refused(Put::NotLast) => "refused",
            Tried::Refused(Put::Last) => "refused last",
        })
    }
}

impl From<(Put, u64)> for Answer {
    fn from((put, front): (Put, u64)) -> Self {
        match put {
            Put::NotLast => Answer::Named("not last confirmed ", front),
            Put::Last => Answer::Named("last confirmed ", front),
        }
    }
}

impl From<Revived> for Answer {
    fn from(revived: Revived) -> Self {
        Answer::Text(match revived {
            Revived::AtZero => "at zero",
            Revived::Held => "held",
        })
    }
}

impl From<Mode> for Answer {
    fn from(mode: Mode) -> Self {
        Answer::Text(match mode {
            Mode::Slots => "slots",
            Mode::Atomic => "atomic",
        })
    }
}

impl From<Phase> for Answer {
    fn from(phase: Phase) -> Self {
        Answer::Text(match phase {
            Phase::Closing(closed) => return Answer::Named("closing ", u64::from(closed)),
            Phase::LiveSlots => "live slots",
            Phase::LiveAtomic => "live atomic",
            Phase::Collected => "collected",
            Phase::Confirmed => "confirmed",
            Phase::Dead => "dead",
            Phase::Reviving | Phase::Fronted | Phase::Opening(_) => "reviving",
        })
    }
}

impl From<ControlFault> for Answer {
    fn from(fault: ControlFault) -> Self {
        Answer::Text(match fault {
            ControlFault::AlreadyDead => "already dead",
            ControlFault::NotDead => "not dead",
            ControlFault::NotZero => "not zero",
            ControlFault::MidSwitch => "mid switch",
            ControlFault::WornOut => "worn out",
        })
    }
}

impl From<ExitWhy> for Answer {
    fn from(why: ExitWhy) -> Self {
        match why {
            ExitWhy::MidSwitch => Answer::Text("mid switch"),
            ExitWhy::PassesOut(passes) => Answer::Named("passes out ", u64::from(passes)),
        }
    }
}

impl From<Enter> for Answer {
    fn from(enter: Enter) -> Self {
        Answer::Text(match enter {
            Enter::Entered => "entered",
            Enter::Again => "again",
        })
    }
}

impl From<Limits> for Answer {
    fn from(limits: Limits) -> Self {
        Answer::Limits(limits)
    }
}

impl From<FreezeFault> for Answer {
    fn from(fault: FreezeFault) -> Self {
        Answer::Text(match fault {
            FreezeFault::TagsOut(tags) => return Answer::Named("tags out ", u64::from(tags)),
            FreezeFault::DepthFull => "depth full",
            FreezeFault::NotFrozen => "not frozen",
            FreezeFault::NotDrained => "not drained",
            FreezeFault::WornOut => "worn out",
        })
    }
}

impl<T: Into<Answer>, E: Into<Answer>> From<Result<T, E>> for Answer {
    fn from(answered: Result<T, E>) -> Self {
        match answered {
            Ok(answer) => answer.into(),
            Err(fault) => fault.into(),
        }
    }
}

/// Appends the end of a gate or of a queue, with the first `count` of its words.
pub(crate) fn push_end<const W: usize>(out: &mut Vec<u8>, ended: &Final<W>, count: usize) -> Result<(), AllocError> {
    let state = if ended.dead { "ended dead kills " } else { "ended live kills " };
    push_named(out, state, ended.kills)?;
    push_named(out, " releases ", ended.releases)?;
    push_text(out, " words")?;
    for word in ended.words.iter().take(count) {
        push_named(out, " ", *word)?;
    }
    Ok(())
}
