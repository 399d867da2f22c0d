// Erased from crates/freeze_queue_c/src/open_freezer/tags.rt by tools/erase: edit that file.
//! The tags that no handle has: how they are given to handles and taken back.

use super::OpenFreezer;
use crate::erased::c_answers::Misuse;
use crate::erased::freeze_queue_c::open_tag::OpenTag;
use crate::erased::pointers::{Arc, TryBox};
use alloc::boxed::Box;

impl OpenFreezer {
    /// Takes out the next tag that no handle has: the tag that was given back last. Refuses with NoneWaits or Memory.
    pub fn next_tag(&mut self) -> Result<Box<OpenTag>, Misuse> {
        let Some(tag) = self.waiting.pop() else {
            return Err(Misuse::NoneWaits);
        };
        let Ok(queue) = Arc::try_clone(&self.queue) else {
            self.waiting.push(tag);
            return Err(Misuse::Memory);
        };
        let biased = tag.into_biased(self.freezer.limits());
        match Box::try_from_value(OpenTag::new(queue, self.number, biased)) {
            Ok(open) => Ok(open),
            Err(back) => {
                self.take_back(back.value);
                Err(Misuse::Memory)
            }
        }
    }

    /// Why this tag may not go back. Refuses with Foreign, also if no tag of the queue is out; then with Entered.
    pub fn refuse_back(&self, tag: &OpenTag) -> Result<(), Misuse> {
        let own = self.number;
        let number = tag.number();
        if self.waiting.len() >= self.tags as usize || own.counter != number.counter || own.drawn != number.drawn {
            Err(Misuse::Foreign)
        } else if tag.entered() {
            Err(Misuse::Entered)
        } else {
            Ok(())
        }
    }

    /// Takes back a tag that has no bias and isn't in. There is room for it.
    ///
    /// # Preconditions
    ///
    /// - `tag` belongs to `self.queue`.
    /// - `stage(tag.tag)` is `Unbiased`.
    /// - `in_now(tag.tag)` is `false`.
    /// - `self.waiting.len()` is less than `self.freezer.tags`.
    pub fn take_back(&mut self, tag: OpenTag) {
        match tag.into_tag().into_tag() {
            Ok(plain) => self.waiting.push(plain),
            Err(_) => unreachable!(),
        }
    }
}
