// Erased from crates/loose_box/src/lib.rt by tools/erase: edit that file.
//! A box taken apart, with its pointer visible, and put together again. The libraries for C keep such boxes behind a
//! pointer that C may have.

mod loose;

pub use loose::Loose;
