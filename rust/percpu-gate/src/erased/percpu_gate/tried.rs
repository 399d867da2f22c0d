// Erased from crates/percpu_gate/src/tried.rt by tools/erase: edit that file.
//! The results of the counting calls.

/// The result of a put.
#[derive(Clone, Copy, Debug, PartialEq, Eq)]
pub enum Put {
    /// The count isn't known to be at zero.
    NotLast,
    /// The release: this call's step set ZERO, so everything was put. Linux: the call of `release`
    /// (include/linux/percpu-refcount.h).
    Last,
}

impl Put {
    /// The result after the exchange that marks zero was won, or lost.
    #[inline]
    pub(crate) fn of(is_won: bool) -> Put {
        if is_won { Put::Last } else { Put::NotLast }
    }

    /// 1 for a release, else 0.
    #[inline]
    pub(crate) fn released(self) -> u64 {
        match self {
            Put::Last => 1,
            Put::NotLast => 0,
        }
    }
}

/// The result of a try.
#[derive(Clone, Copy, Debug, PartialEq, Eq)]
pub enum Tried {
    /// The reference is held.
    Given,
    /// No reference was taken. The try had added 1; this is the result of putting it back.
    Refused(Put),
}

impl Tried {
    /// The number of references that the try took: 1 or 0.
    #[inline]
    pub(crate) fn taken(self) -> u32 {
        match self {
            Tried::Given => 1,
            Tried::Refused(_) => 0,
        }
    }

    /// 1 for a release, else 0.
    #[inline]
    pub(crate) fn released(self) -> u64 {
        match self {
            Tried::Given => 0,
            Tried::Refused(answer) => answer.released(),
        }
    }
}
