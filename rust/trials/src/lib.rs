//! The code of a caller (`uses`), erased. The project's own tests are in tests/, and `play_calls` plays rows of calls.

#[doc(hidden)]
pub mod erased;
