// Erased from crates/percpu_core/src/reply.rt by tools/erase: edit that file.
//! The replies to steps.

/// The reply to an enabled event.
#[derive(Clone, Copy, Debug, PartialEq, Eq)]
pub enum Reply {
    /// The references are held.
    Given,
    /// The try came too late; what it added has to be undone.
    Refused,
    /// The step didn't leave DEAD alone: some count is left, or ZERO is already set.
    NotLast,
    /// The step left DEAD alone, so this seat has to mark zero.
    ToMark,
    /// The mark was won: this is the release.
    Last,
    /// The exchange found a word other than the expected one.
    Lost,
    /// The exchange of a slot's delta was won.
    Won,
    /// The slot is open with this delta.
    Opened(i64),
    /// The slot is closed.
    Closed,
    /// The delta of the slot that was closed.
    Collected(i64),
    /// The whole shared word.
    Shared(u64),
    /// The front, or a guarded word.
    Number(u64),
    /// The control has made its step.
    Done,
}

impl Reply {
    /// The delta of the slot that was closed.
    pub fn closed_delta(self) -> i64 {
        match self {
            Reply::Collected(delta) => delta,
            _ => 0,
        }
    }

    /// 1 for a release, else 0.
    pub fn won(self) -> u64 {
        match self {
            Reply::Last => 1,
            _ => 0,
        }
    }
}
