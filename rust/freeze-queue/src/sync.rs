//! The means by which threads wait, under one name: std's, or the turns of rust/orders, which go through their orders.
pub(crate) use std::sync::atomic::AtomicU32;
pub(crate) use std::sync::{Condvar, Mutex, MutexGuard};
/// The time for which a thread that waits looks at most before it sleeps: about as long as it takes to sleep and to be woken.
pub(crate) const MOST_PATIENCE: std::time::Duration = std::time::Duration::from_micros(4);

pub(crate) use std::thread::{Thread, current, park, park_timeout, sleep};
