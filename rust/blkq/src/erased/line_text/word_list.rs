// Erased from crates/line_text/src/word_list.rt by tools/erase: edit that file.
//! The words of a line, and checks of how many are left.

use crate::erased::line_text::fault::Why;

/// The words of a line that are left: what is between spaces and tabs. In contracts it is the list of them.
#[derive(Debug)]
pub struct Words<'a> {
    rest: &'a [u8],
}

impl<'a> Words<'a> {
    pub(crate) fn new(line: &'a [u8]) -> Self {
        Words { rest: line }
    }

    /// Returns the number of words that are left, and takes none of them.
    pub fn count_left(&self) -> usize {
        Words::new(self.rest).count()
    }
}

fn is_blank(byte: u8) -> bool {
    byte == b' ' || byte == b'\t'
}

pub(crate) fn without_blanks(line: &[u8]) -> &[u8] {
    let mut rest = line;
    while let [first, others @ ..] = rest {
        if !is_blank(*first) {
            break;
        }
        rest = others;
    }
    rest
}

// Returns the length of the word at the beginning of the line.
fn word_len(line: &[u8]) -> usize {
    for (index, byte) in line.iter().enumerate() {
        if is_blank(*byte) {
            return index;
        }
    }
    line.len()
}

impl<'a> Iterator for Words<'a> {
    type Item = &'a [u8];

    fn next(&mut self) -> Option<&'a [u8]> {
        let line = without_blanks(self.rest);
        if line.is_empty() {
            self.rest = line;
            return None;
        }
        let (word, rest) = line.split_at(word_len(line));
        self.rest = rest;
        Some(word)
    }
}

/// Returns whether a word is this text.
pub fn is_word(word: &[u8], text: &str) -> bool {
    word == text.as_bytes()
}

/// Checks that no words are left, and returns `ExtraWord` otherwise.
pub fn no_words(mut words: Words<'_>) -> Result<(), Why> {
    match words.next() {
        Some(_) => Err(Why::ExtraWord),
        None => Ok(()),
    }
}

/// Returns the one word that is left, or `MissingWord` if there is none and `ExtraWord` if there are more.
pub fn one_word<'a>(mut words: Words<'a>) -> Result<&'a [u8], Why> {
    let word = words.next().ok_or(Why::MissingWord)?;
    no_words(words)?;
    Ok(word)
}

/// Returns the two words that are left, or `MissingWord` if there are fewer and `ExtraWord` if there are more.
pub fn two_words<'a>(mut words: Words<'a>) -> Result<(&'a [u8], &'a [u8]), Why> {
    let first = words.next().ok_or(Why::MissingWord)?;
    let second = words.next().ok_or(Why::MissingWord)?;
    no_words(words)?;
    Ok((first, second))
}

type ThreeWords<'a> = (&'a [u8], &'a [u8], &'a [u8]);

/// Returns the three words that are left, or `MissingWord` if there are fewer and `ExtraWord` if there are more.
pub fn three_words<'a>(mut words: Words<'a>) -> Result<ThreeWords<'a>, Why> {
    let first = words.next().ok_or(Why::MissingWord)?;
    let second = words.next().ok_or(Why::MissingWord)?;
    let third = words.next().ok_or(Why::MissingWord)?;
    no_words(words)?;
    Ok((first, second, third))
}
