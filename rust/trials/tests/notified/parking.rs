//! The parker of `blkq`, which counts how often a thread parks and how often it is to be woken.

pub use blkq::erased::crossbeam_utils::Backoff;

pub mod sync {
    use blkq::erased::crossbeam_utils::sync as waits;
    use blkq::erased::fallible::AllocError;
    use std::sync::Arc;
    use std::sync::atomic::{AtomicU64, Ordering::SeqCst};

    /// How often the thread parked, and how often it was to be woken.
    #[derive(Default)]
    pub struct Counts {
        pub parks: AtomicU64,
        pub unparks: AtomicU64,
    }

    pub struct Parker {
        parker: waits::Parker,
        unparker: Unparker,
    }

    impl Parker {
        pub fn try_new() -> Result<Parker, AllocError> {
            let parker = waits::Parker::try_new()?;
            let unparker = Unparker { unparker: parker.unparker().clone(), counts: Arc::default() };
            Ok(Parker { parker, unparker })
        }

        pub fn unparker(&self) -> &Unparker {
            &self.unparker
        }

        pub fn park(&self) {
            self.unparker.counts.parks.fetch_add(1, SeqCst);
            self.parker.park();
        }
    }

    #[derive(Clone)]
    pub struct Unparker {
        unparker: waits::Unparker,
        pub counts: Arc<Counts>,
    }

    impl Unparker {
        pub fn unpark(&self) {
            self.counts.unparks.fetch_add(1, SeqCst);
            self.unparker.unpark();
        }
    }
}
