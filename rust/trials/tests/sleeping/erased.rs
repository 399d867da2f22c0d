//! The erased files of the queues between threads, over a ring that holds threads, and over waits that count.
#[path = "../../../blkq/src/erased"]
mod queues {
    pub mod run_queues;
}

pub use crate::counting as wait_queue;
pub use crate::ring as crossbeam_queue;
pub use blkq::erased::{crossbeam_utils, fallible};
pub use queues::run_queues;

pub mod sync {
    pub use crate::counting::Parker;
}
