// Erased from crates/line_text/src/appending.rt by tools/erase: edit that file.
//! Appending to a text. If memory is refused, the text is unchanged.

use crate::erased::fallible::{AllocError, TryVec};
use crate::erased::hex;
use crate::erased::itoa::Buffer;

/// Appends a number in decimal.
pub fn push_number(out: &mut Vec<u8>, number: u64) -> Result<(), AllocError> {
    let mut buffer = Buffer::new();
    out.try_extend_from_slice(buffer.format(number).as_bytes())
}

/// Appends a text.
pub fn push_text(out: &mut Vec<u8>, text: &str) -> Result<(), AllocError> {
    out.try_extend_from_slice(text.as_bytes())
}

/// Appends a name, and then a number in decimal.
pub fn push_named(out: &mut Vec<u8>, name: &str, number: u64) -> Result<(), AllocError> {
    let before = out.len();
    push_text(out, name)?;
    let pushed = push_number(out, number);
    if pushed.is_err() {
        out.truncate(before);
    }
    pushed
}

/// Appends a byte in two lower-case hexadecimal digits.
pub fn push_hex(out: &mut Vec<u8>, byte: u8) -> Result<(), AllocError> {
    let mut digits = [0; 2];
    let _ = hex::encode_to_slice([byte].as_slice(), &mut digits);
    out.try_extend_from_slice(&digits)
}
