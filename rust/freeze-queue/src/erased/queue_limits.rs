// Erased from crates/queue_limits/src/lib.rt by tools/erase: edit that file.
//! The limits of a request queue, and how they cut a range of sectors.
//!
//! A device takes requests of a bounded number of sectors (the hardware limit). A queue may be set to send smaller requests
//! (`max`), and some devices are laid out in chunks that no request may cross. So a request for a range of sectors is cut into
//! pieces, in order. Each piece is as long as the limits allow at its start; a piece before the last ends where a physical block
//! ends, if it can. [`Limits`] has the numbers, and [`Limits::pieces`] cuts, with no allocation and in constant time for each
//! piece.
//!
//! The pieces of a range are given by a definition (`specs/Pieces.antt`) that is independent of the code; `one_split`
//! proves that each range has exactly one such list, and which one it is.

mod fault;
mod limits;
mod pieces;

pub use fault::LimitFault;
pub use limits::{CHUNK_LIMIT, HARDWARE_LIMIT, Limits, PHYSICAL_LIMIT};
pub use pieces::Pieces;
