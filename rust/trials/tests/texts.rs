//! Compares the stand-ins for hex, itoa and memchr with std.

mod shared;

use blkq::erased::hex::{self, FromHexError};
use blkq::erased::itoa::Buffer;
use blkq::erased::memchr::memchr;
use shared::Numbers;

#[test]
fn digits_by_hand() {
    let mut room = [0; 6];
    assert_eq!(hex::encode_to_slice(&[0, 0xAF, 0x5c], &mut room), Ok(()));
    assert_eq!(&room, b"00af5c");
    assert_eq!(hex::encode_to_slice(&[1], &mut room), Err(FromHexError::InvalidStringLength));
    let mut bytes = [1; 3];
    assert_eq!(hex::decode_to_slice(b"00aF5C", &mut bytes), Ok(()));
    assert_eq!(bytes, [0, 0xaf, 0x5c]);
    assert_eq!(hex::decode_to_slice(b"", &mut []), Ok(()));
    assert_eq!(hex::decode_to_slice(b"0g1", &mut bytes), Err(FromHexError::OddLength));
    assert_eq!(hex::decode_to_slice(b"0g", &mut bytes), Err(FromHexError::InvalidStringLength));
    assert_eq!(hex::decode_to_slice(b"0g", &mut bytes[..1]), Err(FromHexError::InvalidHexCharacter));
    assert_eq!(hex::decode_to_slice("\u{e9}".as_bytes(), &mut bytes[..1]), Err(FromHexError::InvalidHexCharacter));
}

#[test]
fn every_byte_there_and_back() {
    for byte in 0..=255 {
        let mut room = [0; 2];
        hex::encode_to_slice(&[byte], &mut room).unwrap();
        assert_eq!(std::str::from_utf8(&room).unwrap(), format!("{byte:02x}"));
        let mut read = [!byte];
        hex::decode_to_slice(&room, &mut read).unwrap();
        assert_eq!(read, [byte]);
        assert_eq!(hex::decode_to_slice(&[byte, b'0'], &mut read).is_ok(), char::from(byte).is_ascii_hexdigit());
    }
}

#[test]
fn numbers_as_std_has_them() {
    let mut buffer = Buffer::new();
    let mut numbers = Numbers::from(7);
    let edges = (0..20).flat_map(|power| [10u64.pow(power) - 1, 10u64.pow(power)]).chain([u64::MAX]);
    let random: Vec<u64> = (0..20_000).map(|k| numbers.next() >> (k % 64)).collect();
    for number in edges.chain(random) {
        assert_eq!(buffer.format(number).as_bytes(), number.to_string().as_bytes());
    }
}

#[test]
fn the_first_place_of_a_byte() {
    let mut numbers = Numbers::from(9);
    for length in 0..200 {
        let text: Vec<u8> = (0..length).map(|_| b'a' + numbers.below(20) as u8).collect();
        for needle in b'a'..b'w' {
            assert_eq!(memchr(needle, &text), text.iter().position(|byte| *byte == needle));
        }
    }
}
