// Erased from crates/c_answers/src/lib.rt by tools/erase: edit that file.
//! What both libraries for C return: why a call is refused before it reaches the gate or the queue (`misuse`), the
//! numbers of the results that both have (`number`), and the unique number of a gate or a queue (`drawn_number`).

mod drawn_number;
mod misuse;
mod number;

pub use drawn_number::DrawnNumber;
pub use misuse::Misuse;
pub use number::{of_put, of_unit, put_number, write};
