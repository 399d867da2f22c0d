// A stand-in for the kit's std::env, written by hand: tools/erase leaves it alone.
//! The words after a program's name.

use std::env::args_os;
use std::io::{Error, ErrorKind, Result};
use std::vec::IntoIter;

/// The program's name and the words after it. Refuses words that aren't UTF-8.
pub fn args() -> Result<IntoIter<String>> {
    let mut words = Vec::new();
    for word in args_os() {
        words.push(word.into_string().map_err(|_| Error::from(ErrorKind::InvalidInput))?);
    }
    Ok(words.into_iter())
}
