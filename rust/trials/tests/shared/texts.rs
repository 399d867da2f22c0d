//! The texts of faults.

use std::fmt::Display;

/// The text of each fault.
pub fn texts_of<T: Display, const N: usize>(faults: [T; N]) -> [String; N] {
    faults.map(|it| it.to_string())
}
