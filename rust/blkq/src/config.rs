//! The configuration of a run.
use crate::erased::blk_workers as erased;

/// The numbers of threads, slots and tags with which a script is run. They don't change the answer.
///
/// ```
/// use blkq::Config;
///
/// let script = b"blkq 1\ndisk 8 hw 8\nwrite 2 3 61\n";
/// let alone = Config::new(1, 1, 1).unwrap();
/// assert_eq!(blkq::run(script, alone), blkq::run(script, Config::default()));
/// ```
#[derive(Clone, Copy, Debug, Default, PartialEq, Eq)]
pub struct Config(pub(crate) erased::Config);

impl Config {
    /// Makes a configuration of 1 to 32 workers, 1 to 64 slots and 1 to 63 tags. Returns `None` for other numbers.
    ///
    /// ```
    /// use blkq::Config;
    ///
    /// assert!(Config::new(32, 64, 63).is_some());
    /// assert!(Config::new(33, 64, 63).is_none());
    /// ```
    #[must_use]
    pub fn new(workers: u32, slots: u32, tags: u32) -> Option<Config> {
        erased::Config::new(workers, slots, tags).map(Config)
    }

    /// Returns the number of threads that do requests: 1 to 32, by default 4.
    ///
    /// ```
    /// assert_eq!(blkq::Config::default().workers(), 4);
    /// ```
    #[must_use]
    pub fn workers(self) -> u32 {
        self.0.workers()
    }

    /// Returns the number of slots that the gate counts on: 1 to 64, by default 8.
    ///
    /// ```
    /// assert_eq!(blkq::Config::default().slots(), 8);
    /// ```
    #[must_use]
    pub fn slots(self) -> u32 {
        self.0.slots()
    }

    /// Returns the maximum number of requests in the queue: 1 to 63, by default 16.
    ///
    /// ```
    /// assert_eq!(blkq::Config::default().tags(), 16);
    /// ```
    #[must_use]
    pub fn tags(self) -> u32 {
        self.0.tags()
    }
}
