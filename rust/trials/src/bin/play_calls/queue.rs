// Erased from crates/play_calls/src/queue.rt by tools/erase: edit that file.
//! A queue on which calls are made one after another, until it ends. The conditions of each call are tested when it is made, so a
//! row of calls needs no proof of its own.

use crate::answer::{Answer, push_end};
use crate::queue_calls::{FreezerCall, TagCall};
use trials::erased::fallible::{AllocError, TryCollect, TryVec};
use trials::erased::freeze_queue::{BlockQueue, Freezer, LIMIT_WORDS, LimitFault, Limits, Memory, RemoveFault, Tag};

/// A queue, its freezer, its tags, and the tags that were given back for its removal.
pub(crate) struct QueuePlayer {
    queue: BlockQueue,
    freezer: Freezer,
    tags: Vec<Tag>,
    /// The number of each tag, at its index.
    numbers: Vec<u32>,
    given_back: Vec<Tag>,
}

/// Makes a call of a tag, except `GiveBack` and `Lose`.
///
/// # Preconditions
///
/// - `tag` belongs to `queue`.
fn play_tag(queue: &BlockQueue, tag: &mut Tag, call: TagCall) -> Answer {
    let slots = queue.slots();
    match call {
        TagCall::Enter { slot } if slot < slots && !tag.entered() => queue.try_enter(tag, slot).into(),
        TagCall::EnterFrozen { slot } if slot < slots && !tag.entered() => queue.try_enter_frozen(tag, slot).into(),
        TagCall::Leave { slot } if slot < slots && tag.entered() => queue.leave(tag, slot).into(),
        TagCall::Limits if tag.entered() => queue.limits(tag).into(),
        TagCall::Entered => tag.entered().into(),
        _ => Answer::PassedOver,
    }
}

/// Returns limits with the same hardware limit as these, and with other settings.
fn limits_like(limits: Limits, max: u32, chunk: u32, physical: u32) -> Result<Limits, LimitFault> {
    let mut made = Limits::new(limits.hw(), max, chunk)?;
    made.set_physical(physical)?;
    Ok(made)
}

/// Makes a call of the freezer, except `Remove`.
///
/// # Preconditions
///
/// - `freezer` belongs to `queue`.
fn play_freezer(queue: &BlockQueue, freezer: &mut Freezer, call: FreezerCall) -> Answer {
    match call {
        FreezerCall::Freeze => freezer.start_freeze(queue).into(),
        FreezerCall::Drained => freezer.poll_drained(queue).into(),
        FreezerCall::Set { max, chunk, physical } => match limits_like(freezer.limits(), max, chunk, physical) {
            Ok(limits) => freezer.set(queue, limits).into(),
            Err(_) => Answer::PassedOver,
        },
        FreezerCall::Thaw => freezer.thaw(queue).into(),
        FreezerCall::Mode(mode) => {
            freezer.mode(queue, mode);
            Answer::Done
        }
        FreezerCall::Depth => freezer.depth().into(),
        FreezerCall::Limits => freezer.limits().into(),
        FreezerCall::Remove => Answer::PassedOver,
    }
}

impl QueuePlayer {
    /// Returns a new queue of these sizes, for a device of these limits.
    ///
    /// # Preconditions
    ///
    /// - `slots` is from 1 to 512.
    /// - `tags` is from 1 to 1023.
    pub(crate) fn new(slots: u32, tags: u32, limits: Limits) -> Result<QueuePlayer, Memory> {
        debug_assert!(1 <= slots);
        debug_assert!(slots <= 512);
        debug_assert!(1 <= tags);
        debug_assert!(tags <= 1023);
        let numbers = (0..tags).try_collected()?;
        let (queue, freezer, tags) = BlockQueue::new(limits, slots, tags)?;
        Ok(QueuePlayer { queue, freezer, tags, numbers, given_back: Vec::new() })
    }

    /// Appends the answer to a call of the tag with this number, if it is there. After a tag is given back or lost, those behind it
    /// move up.
    pub(crate) fn ask_tag(&mut self, out: &mut Vec<u8>, number: u32, call: TagCall) -> Result<(), AllocError> {
        let Some(at) = self.numbers.iter().position(|it| *it == number) else {
            return Answer::PassedOver.append_to(out);
        };
        if at >= self.tags.len() {
            return Answer::PassedOver.append_to(out);
        }
        match call {
            TagCall::GiveBack if !self.tags[at].entered() => {
                let tag = self.tags.remove(at);
                self.given_back.try_push(tag)?;
                self.numbers.retain(|it| *it != number);
                Answer::Done.append_to(out)
            }
            TagCall::Lose => {
                let _lost = self.tags.remove(at);
                self.numbers.retain(|it| *it != number);
                Answer::Done.append_to(out)
            }
            call => play_tag(&self.queue, &mut self.tags[at], call).append_to(out),
        }
    }

    /// Removes the queue, and appends its end. Returns the queue if it may not end.
    fn remove(self, out: &mut Vec<u8>) -> Result<Option<QueuePlayer>, AllocError> {
        let QueuePlayer { queue, freezer, tags, numbers, given_back } = self;
        match freezer.remove(queue, given_back) {
            Ok(ended) => {
                push_end(out, &ended, LIMIT_WORDS)?;
                Ok(None)
            }
            Err(RemoveFault { why, freezer, queue, tags: given_back }) => {
                let player = QueuePlayer { queue, freezer, tags, numbers, given_back };
                Answer::from(why).append_to(out)?;
                Ok(Some(player))
            }
        }
    }
}

/// Appends the answer to a call of the freezer. After its end there is no queue.
pub(crate) fn ask_freezer(
    queue: &mut Option<QueuePlayer>,
    out: &mut Vec<u8>,
    call: FreezerCall,
) -> Result<(), AllocError> {
    match (queue.take(), call) {
        (None, _) => Answer::PassedOver.append_to(out),
        (Some(player), FreezerCall::Remove) => {
            *queue = player.remove(out)?;
            Ok(())
        }
        (Some(mut player), call) => {
            let answer = play_freezer(&player.queue, &mut player.freezer, call);
            *queue = Some(player);
            answer.append_to(out)
        }
    }
}
