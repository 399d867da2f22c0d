//! The model: a queue of plain numbers, and the definitions of limits and pieces.
use freeze_queue::{Limits, LimitsError, Piece};

/// A queue as its user sees it.
#[derive(Clone, Debug)]
pub struct Plain {
    pub slots: u32,
    pub tags: u32,
    /// Tags that wait to be given, and that are out.
    pub waiting: u32,
    pub out: u32,
    /// Requests under way, and freezes that aren't thawed.
    pub entered: u32,
    pub depth: u32,
    pub dying: bool,
    /// Freezes that began, and updates that set limits.
    pub begun: u64,
    pub updates: u64,
    pub kills: u64,
    pub releases: u64,
    pub limits: Limits,
}

impl Plain {
    pub fn new(slots: u32, tags: u32, limits: Limits) -> Plain {
        let limits = kept(limits);
        let (begun, updates, kills, releases) = (0, 0, 0, 0);
        Plain {
            slots,
            tags,
            waiting: tags,
            out: 0,
            entered: 0,
            depth: 0,
            dying: false,
            begun,
            updates,
            kills,
            releases,
            limits,
        }
    }

    /// Whether no request enters.
    pub fn is_closed(&self) -> bool {
        self.depth > 0 || self.dying
    }

    pub fn is_drained(&self) -> bool {
        self.is_closed() && self.entered == 0
    }

    /// One freeze more: whether it is drained.
    pub fn freezes(&mut self) -> bool {
        let first = !self.is_closed();
        self.depth += 1;
        self.begun += 1;
        self.closes(first)
    }

    /// The device is gone.
    pub fn dies(&mut self) {
        let first = !self.is_closed();
        self.dying = true;
        self.closes(first);
    }

    fn closes(&mut self, first: bool) -> bool {
        self.kills += u64::from(first);
        self.releases += u64::from(first && self.is_drained());
        self.is_drained()
    }

    pub fn leaves(&mut self) {
        self.entered -= 1;
        self.releases += u64::from(self.is_drained());
    }
}

/// The first refusal of limits that applies.
pub fn refusal(limits: &Limits) -> Option<LimitsError> {
    let powers = || (0..=15).map(|power| 1 << power);
    if !(1..=65_535).contains(&limits.hardware) {
        Some(LimitsError::HardwareRange)
    } else if limits.max > limits.hardware {
        Some(LimitsError::AboveHardware)
    } else if limits.chunk > 65_535 {
        Some(LimitsError::ChunkTooLarge)
    } else if !powers().any(|size: u32| size == limits.physical) {
        Some(LimitsError::BadPhysical)
    } else {
        None
    }
}

/// As a queue keeps them.
pub fn kept(limits: Limits) -> Limits {
    limits.with_max(if limits.max == 0 { limits.hardware } else { limits.max })
}

/// Whether so many sectors from start on are within the reach there, sector by sector.
fn within_reach(limits: &Limits, start: u64, length: u32) -> bool {
    let crosses = |at: u64| limits.chunk > 0 && at % u64::from(limits.chunk) == 0;
    length <= limits.max && !(start + 1..start + u64::from(length)).any(crosses)
}

/// The first piece by its definition: all, where it is within the reach; else the greatest within it that ends with a
/// physical block; else the greatest. (It looks at each length.)
fn first(limits: &Limits, start: u64, count: u32) -> u32 {
    let reached = (1..=count).take_while(|length| within_reach(limits, start, *length));
    let greatest = reached.clone().last().unwrap();
    let ends = |length: &u32| (start + u64::from(*length)) % u64::from(limits.physical) == 0;
    if greatest == count { count } else { reached.filter(ends).last().unwrap_or(greatest) }
}

/// All of them.
pub fn pieces(limits: &Limits, start: u64, count: u32) -> Vec<Piece> {
    let (mut all, mut done) = (vec![], 0);
    while done < count {
        let at = start + u64::from(done);
        let sectors = first(limits, at, count - done);
        all.push(Piece { start: at, sectors });
        done += sectors;
    }
    all
}
