// A stand-in for the kit's itoa, written by hand: tools/erase leaves it alone.
//! Numbers in decimal digits.

const MOST_DIGITS: usize = 20;

/// Room for the digits of a number.
#[derive(Debug)]
pub struct Buffer {
    digits: [u8; MOST_DIGITS],
}

/// The digits of a number.
#[derive(Debug)]
pub struct Digits<'a>(&'a [u8]);

impl<'a> Digits<'a> {
    /// The digits as ASCII bytes. Callers need no `str`, so nothing checks that they are UTF-8.
    #[inline]
    pub fn as_bytes(&self) -> &'a [u8] {
        self.0
    }
}

impl Buffer {
    /// Room that no number uses yet.
    #[inline]
    pub fn new() -> Buffer {
        Buffer { digits: [b'0'; MOST_DIGITS] }
    }

    /// The digits of a number, with no zero before them.
    #[inline]
    pub fn format(&mut self, number: u64) -> Digits<'_> {
        let (mut first, mut left) = (MOST_DIGITS, number);
        loop {
            first -= 1;
            self.digits[first] = b'0' + (left % 10) as u8;
            left /= 10;
            if left == 0 {
                break;
            }
        }
        Digits(&self.digits[first..])
    }
}
