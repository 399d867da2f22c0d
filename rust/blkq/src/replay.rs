//! The replay of a schedule.
use crate::erased::blkq_run::replay_bytes;
use crate::erased::counted_io::Counted;
use crate::erased::gate_replay::Replayed;
use crate::errors::ReplayError;
use crate::text::Text;

/// The answer of a replay: a line for each step that was taken, and a last line that says how the replay ended.
///
/// ```
/// let schedule = b"gate 1\nworld 1 1 atomic 0\n0 add try\n0 sub 1\n";
/// let replay = blkq::replay(schedule)?;
/// assert!(!replay.is_stuck());
/// let lines: Vec<&str> = std::str::from_utf8(replay.text()).unwrap().lines().collect();
/// assert_eq!(lines, ["given", "not last", "end live 1 front 0 kills 0 releases 0 held 0"]);
/// # Ok::<(), blkq::ReplayError>(())
/// ```
#[derive(Clone, Debug, PartialEq, Eq)]
pub struct Replay {
    text: Vec<u8>,
    is_stuck: bool,
}

impl Replay {
    /// Returns the lines, as `blkq replay` writes them.
    ///
    /// ```
    /// let replay = blkq::replay(b"gate 1\nworld 1 1 dead 0\n")?;
    /// assert_eq!(replay.text(), b"end zero 0 front 1 kills 0 releases 0 held 0\n");
    /// # Ok::<(), blkq::ReplayError>(())
    /// ```
    #[must_use]
    pub fn text(&self) -> &[u8] {
        &self.text
    }

    /// Returns the lines, by value.
    ///
    /// ```
    /// let replay = blkq::replay(b"gate 1\nworld 1 1 slots 0\n")?;
    /// assert_eq!(replay.into_text(), b"end live 281474976710657 front 0 kills 0 releases 0 held 0\n");
    /// # Ok::<(), blkq::ReplayError>(())
    /// ```
    #[must_use]
    pub fn into_text(self) -> Vec<u8> {
        self.text
    }

    /// Returns whether a step wasn't enabled. In that case the last line is `stuck LINE WHY`, and no later step was tried.
    ///
    /// ```
    /// let replay = blkq::replay(b"gate 1\nworld 1 1 atomic 0\n0 sub 1\n")?;
    /// assert!(replay.is_stuck());
    /// assert_eq!(replay.text(), b"stuck 3 nothing held\n");
    /// # Ok::<(), blkq::ReplayError>(())
    /// ```
    #[must_use]
    pub fn is_stuck(&self) -> bool {
        self.is_stuck
    }
}

/// Takes the steps of a schedule one after another, and returns the reply to each. The program `blkq replay` writes the same.
///
/// A gate of your own that takes the same steps in the same order has to give the same replies; the example `own_gate` compares such a gate.
/// The maximum size of a schedule is 1,048,576 bytes.
///
/// # Errors
///
/// Returns the first [`ReplayError`] that applies. A step that isn't enabled is no error: the answer reports it.
///
/// # Examples
///
/// ```
/// use blkq::{Reason, ReplayError};
///
/// // A try after DEAD was set is refused, and takes back what it added.
/// let schedule = b"gate 1\nworld 1 1 atomic 0\nc dead\n0 add live\n0 undo\nc confirm\nc base\nc mark\n";
/// let replay = blkq::replay(schedule)?;
/// let answers = b"ok\nrefused\nnot last\nok\nto mark\nlast\nend zero 0 front 1 kills 1 releases 1 held 0\n";
/// assert_eq!(replay.text(), answers);
///
/// let Err(ReplayError::Schedule(refused)) = blkq::replay(b"gate 1\nworld 65 1 slots 0\n") else { panic!() };
/// assert_eq!((refused.line, refused.reason), (2, Reason::OutOfRange));
/// # Ok::<(), ReplayError>(())
/// ```
pub fn replay(schedule: &[u8]) -> Result<Replay, ReplayError> {
    let mut text = Text::default();
    let ended = replay_bytes(&mut Counted::new(schedule), &mut Counted::new(&mut text))?;
    Ok(Replay { text: text.0, is_stuck: ended == Replayed::Stuck })
}
