// A stand-in for the kit's hex, written by hand: tools/erase leaves it alone.
//! Bytes in hexadecimal digits.

/// Why digits are refused.
#[derive(Clone, Copy, Debug, PartialEq, Eq)]
pub enum FromHexError {
    /// A character is no digit.
    InvalidHexCharacter,
    /// The digits are an odd number.
    OddLength,
    /// The room isn't of two digits for each byte.
    InvalidStringLength,
}

const DIGITS: [u8; 16] = *b"0123456789abcdef";

/// Writes the lower-case digits of these bytes. Refuses room of another size than two digits for each byte.
#[inline]
pub fn encode_to_slice(bytes: &[u8], room: &mut [u8]) -> Result<(), FromHexError> {
    if room.len() != 2 * bytes.len() {
        return Err(FromHexError::InvalidStringLength);
    }
    for (byte, digits) in bytes.iter().zip(room.chunks_exact_mut(2)) {
        digits[0] = DIGITS[usize::from(*byte >> 4)];
        digits[1] = DIGITS[usize::from(*byte & 15)];
    }
    Ok(())
}

fn value(digit: u8) -> Result<u8, FromHexError> {
    match char::from(digit).to_digit(16) {
        Some(value) => Ok(value as u8),
        None => Err(FromHexError::InvalidHexCharacter),
    }
}

/// Writes the bytes of these digits, of either case. Refuses an odd number of them first, then room of another size.
pub fn decode_to_slice(digits: &[u8], room: &mut [u8]) -> Result<(), FromHexError> {
    if digits.len() % 2 != 0 {
        return Err(FromHexError::OddLength);
    }
    if digits.len() / 2 != room.len() {
        return Err(FromHexError::InvalidStringLength);
    }
    for (pair, byte) in digits.chunks_exact(2).zip(room) {
        *byte = 16 * value(pair[0])? + value(pair[1])?;
    }
    Ok(())
}
