//! Clauses with braces of their own.

pub struct Pair {
    pub left: u32,
    pub right: u32,
}

/// # Preconditions
///
/// - `(λ p. record { left = p.left; right = { inner = { p } } }) pair ≡ pair`.
pub fn sum(pair: &Pair) -> u32 {
    let mut left = pair.left;
    for _step in 0..pair.right {
        left += 1;
    }
    let twice = |n: u32| -> u32 { n + n };
    twice(left)
}
