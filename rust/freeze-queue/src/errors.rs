//! The errors of this crate: why a call was refused. A refusal leaves everything as it was.
use crate::erased::queue_limits::LimitFault;
use std::error::Error;
use std::fmt;

/// Errors with their kinds, each with its text.
macro_rules! errors {
    ($($(#[$of:meta])* $error:ident { $($(#[$when:meta])* $kind:ident $(($why:ident: $source:ty))? => $text:literal,)+ })+) => {$(
        $(#[$of])*
        #[derive(Clone, Copy, Debug, PartialEq, Eq, Hash)]
        #[non_exhaustive]
        pub enum $error {
            $($(#[$when])* $kind $(($source))?,)+
        }

        impl fmt::Display for $error {
            fn fmt(&self, f: &mut fmt::Formatter<'_>) -> fmt::Result {
                f.write_str(match self { $($error::$kind { .. } => $text,)+ })
            }
        }

        impl Error for $error {
            fn source(&self) -> Option<&(dyn Error + 'static)> {
                match self { $($error::$kind $(($why))? => errors!(@source $($why)?),)+ }
            }
        }
    )+};
    (@source) => { None };
    (@source $why:ident) => { Some($why) };
}

errors! {
    /// Invalid limits, or a range that limits can't cut.
    ///
    /// ```
    /// use freeze_queue::{Limits, LimitsError};
    ///
    /// assert_eq!(Limits::of_hardware(0).check(), Err(LimitsError::HardwareRange));
    /// assert_eq!(Limits::of_hardware(64).with_physical(3).check(), Err(LimitsError::BadPhysical));
    /// assert_eq!(Limits::of_hardware(64).pieces(1 << 33, 1).unwrap_err(), LimitsError::TooFar);
    /// ```
    LimitsError {
        /// `hardware` isn't from 1 to 65,535.
        HardwareRange => "a hardware limit outside 1 to 65535 sectors",
        /// `max` is above `hardware`.
        AboveHardware => "more sectors than the hardware takes",
        /// `chunk` is above 65,535.
        ChunkTooLarge => "a chunk of more than 65535 sectors",
        /// `physical` isn't a power of two from 1 to 32,768.
        BadPhysical => "a physical block that isn't a power of two from 1 to 32768 sectors",
        /// A sector of the range would be 2^33 (4 TiB) or above. On a larger disk, pass the start modulo `physical * chunk` (modulo
        /// `physical` if `chunk` is 0), and add the difference to the start of each piece: the cuts repeat with that period.
        TooFar => "a sector of 2^33 or above",
    }

    /// Why [`Queue::new`](crate::Queue::new) or [`Builder::build`](crate::Builder::build) failed.
    ///
    /// ```
    /// use freeze_queue::{Limits, LimitsError, NewError, Queue};
    ///
    /// let refused = Queue::builder(Limits::of_hardware(64)).tags(1024).build();
    /// assert_eq!(refused.unwrap_err().reason, NewError::Size);
    /// let refused = Queue::new(Limits::of_hardware(64).with_max(65));
    /// assert_eq!(refused.unwrap_err(), NewError::Limits(LimitsError::AboveHardware));
    /// ```
    NewError {
        /// The limits are invalid.
        Limits(why: LimitsError) => "invalid limits",
        /// A queue has 1 to 512 slots, 1 to 1,023 tags, and fewer reserved tags than tags.
        Size => "number of slots, tags or reserved tags out of range",
        /// There is no memory for the queue.
        NoMemory => "no memory",
    }

    /// Why entering, or taking a tag, failed.
    ///
    /// ```
    /// # use freeze_queue::{EnterError, Limits, Queue};
    /// let queue = Queue::builder(Limits::of_hardware(64)).tags(1).build()?;
    /// let mut tag = queue.tag()?;
    /// assert_eq!(queue.tag().unwrap_err(), EnterError::NoTag);
    /// let frozen = queue.freeze()?;
    /// assert_eq!(queue.try_enter(&mut tag).unwrap_err(), EnterError::Frozen);
    /// queue.mark_dying();
    /// assert_eq!(queue.enter(&mut tag).unwrap_err(), EnterError::Dying);
    /// # drop(frozen);
    /// # Ok::<(), Box<dyn std::error::Error>>(())
    /// ```
    EnterError {
        /// The tag is of another queue.
        OtherQueue => "the tag is of another queue",
        /// The tag's last request was leaked (`mem::forget`), and is in flight forever.
        StillEntered => "the tag has entered",
        /// The queue is frozen, and the call doesn't wait. (Each refused try may delay the drain a little. So don't retry in a loop: use
        /// a call that waits for the thaw.)
        Frozen => "the queue is frozen",
        /// The queue is frozen or dying, and drained.
        Drained => "the queue is drained",
        /// The device is gone ([`Queue::mark_dying`](crate::Queue::mark_dying)).
        Dying => "the queue's device is gone",
        /// No tag was free at some moment of the call.
        NoTag => "no tag is free",
        /// The deadline has passed.
        TimedOut => "the deadline has passed",
        /// No tag is free, and there is no memory to wait in line.
        NoMemory => "no memory to wait for a tag",
    }

    /// Why a freeze failed. If it had begun, it is thawed.
    ///
    /// ```
    /// # use freeze_queue::{FreezeError, Limits, Queue};
    /// # use std::time::Duration;
    /// let queue = Queue::new(Limits::of_hardware(64))?;
    /// let request = queue.enter_any()?;
    /// assert_eq!(queue.try_freeze().unwrap_err(), FreezeError::NotDrained);
    /// assert_eq!(queue.freeze_timeout(Duration::ZERO).unwrap_err(), FreezeError::TimedOut);
    /// # Ok::<(), Box<dyn std::error::Error>>(())
    /// ```
    FreezeError {
        /// 1,000 freezes aren't thawed yet.
        DepthFull => "1000 freezes aren't thawed yet",
        /// The queue was frozen 2^40 times.
        WornOut => "the queue was frozen 2^40 times",
        /// A request is in flight, or a try that is being refused holds a reference briefly.
        NotDrained => "the queue isn't drained",
        /// Requests were in flight until the deadline.
        TimedOut => "the deadline has passed",
    }

    /// Why [`Queue::update`](crate::Queue::update) or [`OwnedFrozen::set`](crate::OwnedFrozen::set) failed. It has set nothing.
    ///
    /// ```
    /// # use freeze_queue::{Limits, Queue, UpdateError};
    /// let queue = Queue::new(Limits::of_hardware(64))?;
    /// let refused = queue.update(|_| Limits::of_hardware(32));
    /// assert_eq!(refused, Err(UpdateError::OtherHardware));
    /// # Ok::<(), Box<dyn std::error::Error>>(())
    /// ```
    UpdateError {
        /// The limits are invalid.
        Limits(why: LimitsError) => "invalid limits",
        /// `hardware` isn't the queue's.
        OtherHardware => "a hardware limit that isn't the queue's",
        /// The update couldn't freeze the queue: [`FreezeError::DepthFull`] or [`FreezeError::WornOut`].
        Freeze(why: FreezeError) => "the update couldn't freeze the queue",
        /// Another update ran, or requests were in flight, until the deadline.
        TimedOut => "the deadline has passed",
        /// The closure of an update updates the same queue, or sets its limits.
        Nested => "a change within an update of the same queue",
        /// There is no memory to wait for another update.
        NoMemory => "no memory to wait for another update",
    }

    /// Why [`Queue::remove`](crate::Queue::remove) hands the queue back.
    ///
    /// ```
    /// # use freeze_queue::{Limits, Queue, RemoveError};
    /// let queue = Queue::new(Limits::of_hardware(64))?;
    /// let tag = queue.tag()?;
    /// assert_eq!(queue.remove().unwrap_err().reason, RemoveError::TagsOut);
    /// # Ok::<(), Box<dyn std::error::Error>>(())
    /// ```
    RemoveError {
        /// A tag is out: a request, a thread or a task has it. A request leaves before its tag is back, so a drained queue may return
        /// this for a moment: join the threads or tasks first. If a leaked request (`mem::forget`) has the tag, it is out forever: drop the
        /// queue.
        TagsOut => "tags are out",
        /// A freeze isn't thawed, or its thaw is still waking tasks; or a future of
        /// [`enter_any_owned_async`](crate::Queue::enter_any_owned_async) isn't dropped. If it was leaked (`mem::forget`), this lasts
        /// forever: drop the queue.
        Shared => "a freeze or a future still uses the queue",
    }
}

impl From<LimitFault> for LimitsError {
    fn from(fault: LimitFault) -> LimitsError {
        match fault {
            LimitFault::HardwareRange => LimitsError::HardwareRange,
            LimitFault::AboveHardware => LimitsError::AboveHardware,
            LimitFault::ChunkTooLarge => LimitsError::ChunkTooLarge,
            LimitFault::BadPhysical => LimitsError::BadPhysical,
        }
    }
}

impl From<LimitsError> for NewError {
    fn from(why: LimitsError) -> NewError {
        NewError::Limits(why)
    }
}

impl From<LimitsError> for UpdateError {
    fn from(why: LimitsError) -> UpdateError {
        UpdateError::Limits(why)
    }
}

impl From<FreezeError> for UpdateError {
    fn from(why: FreezeError) -> UpdateError {
        match why {
            FreezeError::TimedOut => UpdateError::TimedOut,
            why => UpdateError::Freeze(why),
        }
    }
}

#[cfg(test)]
mod tests {
    use super::*;

    /// Invalid limits have the words of the erased sources.
    #[test]
    fn texts_of_limits() {
        let faults =
            [LimitFault::HardwareRange, LimitFault::AboveHardware, LimitFault::ChunkTooLarge, LimitFault::BadPhysical];
        for fault in faults {
            assert_eq!(LimitsError::from(fault).to_string(), fault.to_string());
            let refused = NewError::from(LimitsError::from(fault));
            assert_eq!(refused.source().map(ToString::to_string), Some(fault.to_string()));
        }
    }

    /// Each error can be sent to another thread, and has its cause as its source.
    #[test]
    fn sources() {
        fn is_an_error<E: Error + Send + Sync + 'static>(why: E) -> Option<String> {
            why.source().map(ToString::to_string)
        }
        assert_eq!(is_an_error(LimitsError::TooFar), None);
        assert_eq!(is_an_error(NewError::Size), None);
        assert_eq!(is_an_error(EnterError::NoTag), None);
        assert_eq!(is_an_error(FreezeError::NotDrained), None);
        assert_eq!(is_an_error(RemoveError::TagsOut), None);
        assert_eq!(
            is_an_error(UpdateError::Freeze(FreezeError::DepthFull)).unwrap(),
            FreezeError::DepthFull.to_string()
        );
        assert_eq!(UpdateError::from(FreezeError::TimedOut), UpdateError::TimedOut);
    }
}
