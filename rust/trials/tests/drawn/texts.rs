//! Texts: what is read, written, decoded and put together.

use crate::draw;
use blkq::erased::counted_io::{Counted, read_whole, write_whole};
use blkq::erased::hex::{decode_to_slice, encode_to_slice};
use blkq::erased::line_text::{hex_bytes, push_hex, push_named, push_number, push_text};
use std::io::Read;

/// Has its bytes in pieces of this size.
struct Pieces<'b>(&'b [u8], usize);

impl Read for Pieces<'_> {
    fn read(&mut self, room: &mut [u8]) -> std::io::Result<usize> {
        let room_of_one = room.len().min(self.1);
        self.0.read(&mut room[..room_of_one])
    }
}

#[test]
fn what_is_read_and_written() {
    draw(2_000, |sizes| {
        let count = sizes.count(0, 1 << 21);
        let (bytes, piece, most) =
            (vec![sizes.size(0, 255) as u8; count], sizes.count(1, 1 << 17), sizes.count(0, 1 << 21));
        // Reads of a byte each cost as much as all others together.
        let piece = piece.max(count / 1_000);
        let read = read_whole(&mut Counted::new(Pieces(&bytes, piece)), most).unwrap();
        assert!(read == bytes[..count.min(most)]);
        let mut written = vec![];
        write_whole(&mut Counted::new(&mut written), &read).unwrap();
        assert!(written == read);
    });
}

#[test]
fn digits() {
    draw(3_000, |sizes| {
        let count = sizes.count(1, 1 << 19);
        let bytes = sizes.bytes(count);
        let mut digits = vec![0; 2 * count];
        encode_to_slice(&bytes, &mut digits).unwrap();
        let mut read = vec![0; count];
        decode_to_slice(&digits, &mut read).unwrap();
        assert!(read == bytes);
        // A caller allows as many bytes as it likes.
        let most = sizes.count(1, count);
        let mut room = vec![0; sizes.count(most, count)];
        assert_eq!(hex_bytes(&digits[..2 * most], &mut room), Ok(most));
        assert!(room[..most] == bytes[..most]);
    });
}

/// A text that grows by each call that appends to one.
#[test]
fn a_text_that_grows() {
    draw(600, |sizes| {
        let (mut text, mut expected) = (vec![], 0);
        for _ in 0..sizes.count(1, 100_000) {
            let number = sizes.size(0, u64::MAX);
            let digits = number.to_string().len();
            push_number(&mut text, number).unwrap();
            push_text(&mut text, " and ").unwrap();
            push_named(&mut text, " n ", number).unwrap();
            push_hex(&mut text, number as u8).unwrap();
            expected += 2 * digits + 5 + 3 + 2;
        }
        assert_eq!(text.len(), expected);
    });
}

/// What is appended to a text of up to 4 GiB comes behind it, whether there is room for it or the text has to grow. Few of its bytes are touched, so
/// it takes little memory.
#[test]
fn a_text_of_any_length() {
    draw(40, |sizes| {
        let (length, number) = (sizes.count(0, 1 << 32), sizes.size(0, u64::MAX));
        let room = if length > 1 << 31 { 64 } else { sizes.count(0, 64) };
        let mut text = vec![0; length + room];
        text.truncate(length);
        push_number(&mut text, number).unwrap();
        push_text(&mut text, " and ").unwrap();
        push_named(&mut text, " n ", number).unwrap();
        push_hex(&mut text, 0xa5).unwrap();
        assert_eq!(String::from_utf8_lossy(&text[length..]), format!("{number} and  n {number}a5"));
    });
}
