// Erased from crates/line_text/src/splitting.rt by tools/erase: edit that file.
//! A line, split into its words.

use crate::erased::line_text::word_list::Words;

/// Returns the words of a line, one after another, as bytes: what is between spaces and tabs. A line of spaces and tabs alone has
/// no words. Allocates nothing.
pub fn words(line: &str) -> Words<'_> {
    Words::new(line.as_bytes())
}
