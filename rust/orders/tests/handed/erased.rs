//! The erased files of the queues, and what they stand on.
#[path = "../../../blkq/src/erased"]
mod files {
    pub mod run_queues;
    pub mod wait_queue;
}

#[path = "../../../blkq/src/erased/crossbeam_utils"]
mod sleeping {
    pub mod sync;
}

pub use crate::ring as crossbeam_queue;
pub use files::{run_queues, wait_queue};
pub use orders::erased::fallible;

/// Threads sleep as in blkq, by the same file.
pub mod crossbeam_utils {
    pub use super::sleeping::sync;

    /// One try comes before the wait is announced.
    pub struct Backoff;

    impl Backoff {
        pub const fn new() -> Backoff {
            Backoff
        }

        pub fn snooze(&self) {}

        pub fn is_completed(&self) -> bool {
            true
        }
    }

    pub struct CachePadded<T>(T);

    impl<T> CachePadded<T> {
        pub const fn new(value: T) -> CachePadded<T> {
            CachePadded(value)
        }
    }

    impl<T> core::ops::Deref for CachePadded<T> {
        type Target = T;

        fn deref(&self) -> &T {
            &self.0
        }
    }
}

pub mod pointers {
    use crate::erased::fallible::AllocError;

    #[derive(Debug)]
    pub struct Arc<T>(real::sync::Arc<T>);

    impl<T> Arc<T> {
        pub fn try_new(value: T) -> Result<Arc<T>, AllocError> {
            Ok(Arc(real::sync::Arc::new(value)))
        }
    }

    impl<T> Clone for Arc<T> {
        fn clone(&self) -> Arc<T> {
            Arc(self.0.clone())
        }
    }

    impl<T> core::ops::Deref for Arc<T> {
        type Target = T;

        fn deref(&self) -> &T {
            &self.0
        }
    }
}

/// Locks and conditions by turns, as blkq names them.
pub mod sync {
    pub use crate::numbers::AtomicUsize;
    pub use orders::turns::MutexGuard;
    use real::cell::Cell;
    use real::time::Duration;

    real::thread_local! {
        /// How often a time limit of this actor passed.
        static LATE: Cell<u32> = const { Cell::new(0) };
    }

    /// How often a time limit of this actor passed since the last call of this.
    pub fn late() -> u32 {
        LATE.replace(0)
    }

    /// A token for the one thread that parks. A time limit passes once no other can go on.
    #[derive(Debug)]
    pub struct Parker {
        is_there: orders::turns::Mutex<bool>,
        given: orders::turns::Condvar,
    }

    impl Parker {
        pub const fn new() -> Parker {
            Parker { is_there: orders::turns::Mutex::new(false), given: orders::turns::Condvar::new() }
        }

        #[track_caller]
        pub fn park(&self) {
            let mut is_there = self.is_there.lock().expect("a lock of no actor that panicked");
            while !*is_there {
                is_there = self.given.wait(is_there).expect("a lock of no actor that panicked");
            }
            *is_there = false;
        }

        #[track_caller]
        pub fn park_timeout(&self, _time: Duration) {
            let mut is_there = self.is_there.lock().expect("a lock of no actor that panicked");
            if !*is_there {
                let (guard, ended) =
                    self.given.wait_until_standstill(is_there).expect("a lock of no actor that panicked");
                LATE.set(LATE.get() + u32::from(ended.timed_out()));
                is_there = guard;
            }
            *is_there = false;
        }

        #[track_caller]
        pub fn unpark(&self) {
            *self.is_there.lock().expect("a lock of no actor that panicked") = true;
            self.given.notify_one();
        }
    }

    #[derive(Debug)]
    pub struct Mutex<T>(orders::turns::Mutex<T>);

    impl<T> Mutex<T> {
        pub const fn new(value: T) -> Mutex<T> {
            Mutex(orders::turns::Mutex::new(value))
        }

        #[track_caller]
        pub fn lock(&self) -> MutexGuard<'_, T> {
            self.0.lock().expect("a lock of no actor that panicked")
        }
    }

    #[derive(Debug)]
    pub struct Condvar(orders::turns::Condvar);

    impl Condvar {
        pub const fn new() -> Condvar {
            Condvar(orders::turns::Condvar::new())
        }

        #[track_caller]
        pub fn wait<'a, T>(&self, guard: MutexGuard<'a, T>) -> MutexGuard<'a, T> {
            self.0.wait(guard).expect("a lock of no actor that panicked")
        }

        #[track_caller]
        pub fn notify_one(&self) {
            self.0.notify_one();
        }

        #[track_caller]
        pub fn notify_all(&self) {
            self.0.notify_all();
        }
    }
}
