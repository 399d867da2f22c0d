//! Words of clauses that are no clauses.

// requires small { n ≤ 9 }
/// A comment that says `ensures { result ≡ 1 }` stays.
///
/// # Preconditions
///
/// - `n` is at most 9.
pub fn told(n: u32) -> &'static str {
    debug_assert!(n <= 9);
    /* invariant { this stays too } */
    if n == 0 { "requires none { n ≡ 0 }" } else { r#"ensures { "some" } ghost x = { 1 };"# }
}

pub const BRACE: char = '{';
pub const QUOTE: u8 = b'"';
