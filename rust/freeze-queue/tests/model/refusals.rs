//! A refusal of the model, for each way in.
use super::plain::Plain;
use freeze_queue::EnterError;

/// A call gives something, or refuses for this reason.
pub fn agrees<T, E: PartialEq + std::fmt::Debug>(answer: Result<T, E>, why: Option<E>) -> Option<T> {
    match (answer, why) {
        (Ok(given), None) => Some(given),
        (Err(reason), Some(why)) => {
            assert_eq!(reason, why);
            None
        }
        (Ok(_), Some(why)) => panic!("it isn't refused: {why:?}"),
        (Err(reason), None) => panic!("it is refused: {reason:?}"),
    }
}

/// Why a tag doesn't enter that looks at a queue, of one that may be frozen.
pub fn look(why: Option<EnterError>, plain: &Plain) -> Option<EnterError> {
    match why {
        Some(EnterError::OtherQueue) => Some(EnterError::OtherQueue),
        Some(EnterError::StillEntered) => Some(EnterError::StillEntered),
        _ => plain.is_drained().then_some(EnterError::Drained),
    }
}

/// The same refusal, for a call that would wait.
pub fn waiting(why: EnterError) -> EnterError {
    match why {
        EnterError::OtherQueue => EnterError::OtherQueue,
        EnterError::StillEntered => EnterError::StillEntered,
        EnterError::Dying => EnterError::Dying,
        other => panic!("a thread that waits for a thaw of its own never enters: {other}"),
    }
}

/// The same refusal, for a call that waits no time.
pub fn in_time(why: EnterError) -> EnterError {
    match why {
        EnterError::OtherQueue => EnterError::OtherQueue,
        EnterError::StillEntered => EnterError::StillEntered,
        EnterError::Dying => EnterError::Dying,
        EnterError::Frozen => EnterError::TimedOut,
        other => panic!("{other}"),
    }
}
