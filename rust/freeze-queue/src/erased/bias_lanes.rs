// Erased from crates/bias_lanes/src/lib.rt by tools/erase: edit that file.
//! Biased lanes: a request enters by a store and a load, while the reference that it counts on stays parked.
//!
//! Each owner has a lane: a word of its own, and a cell beside it in which its reference can be parked. All owners read one
//! more word, the epoch: it is even while requests may enter and odd while they are frozen, and it only grows. The life of a lane:
//!
//! - **Unbiased.** The owner has its reference in hand, and its lane's word is 0.
//! - **Biased.** [`Lane::park`] puts the reference into the cell, and stores the current epoch in the lane: the lane is idle.
//!   From then on [`Lane::enter`] stores that epoch plus one, which makes the lane busy, and loads the epoch. If the epoch is still that
//!   of the bias, the request is in. [`Lane::leave`] stores the epoch of the bias again, and loads the epoch again.
//! - **Frozen.** The [`Freezer`] stores the next, odd epoch, issues a heavy fence ([`Fenced`]), and looks at each lane once. The owner of a lane that it
//!   finds idle or unbiased is out: an owner that enters later finds the odd epoch. So its reference can be *reclaimed*: taken from the
//!   cell, its count dropped, and put back. The owner of a lane that is busy is *watched*: it loads the epoch when it leaves, if
//!   it hasn't yet, and finds that its bias is over.
//! - **Over.** An owner that finds another epoch takes its reference back from the cell, by the exchange by which the freezer
//!   takes it, so exactly one of them gets it. It enters again as it did before it was biased.
//! - **Thawed.** The freezer stores the next, even epoch. Every bias is of an earlier epoch, so each owner that enters finds its bias
//!   over, and can park again.
//!
//! An owner with no request in doesn't delay a freeze, even if its thread sleeps or has ended. `Reference` states a fact
//! about the value in a cell, which owners and freezer keep true.
//!
//! `specs/Lanes.antt` relates owners, freezer and words on one page. The laws: while a request is in,
//! its reference is parked (`entered_is_parked`); an owner that is out stays out until the next epoch (`out_stays_out`);
//! after the looks of a freeze no watched owner is idle (`watched_is_not_at_rest`).

mod fence;
mod freezer;
mod lane;
mod lanes;
mod views;

pub use fence::Fenced;
pub use freezer::Freezer;
pub use lane::Lane;
pub use lanes::{FIRST_EPOCH, Lanes};
pub use views::Stage;
