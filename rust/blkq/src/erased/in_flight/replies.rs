// Erased from crates/in_flight/src/replies.rt by tools/erase: edit that file.
//! The lines of the replies to a script's lines, in order.

use crate::erased::fallible::{AllocError, TryRoom, TryVec};
use crate::erased::pointers::TryBox;
use std::collections::VecDeque;
use std::mem;

/// The maximum number of bytes of a line that takes no memory of its own.
pub(crate) const MOST_SHORT: usize = 22;

/// The line of one reply.
pub struct Text {
    bytes: Bytes,
}

// Lines of up to 22 bytes, such as those of small requests, go from thread to thread in the value itself, which is small enough for a
// completion to fit in one cache line.
enum Bytes {
    Short(ShortLine),
    Long(Box<Vec<u8>>),
}

impl Text {
    /// Makes a line of the bytes of a room, which a short line leaves its memory.
    pub(crate) fn of(room: &mut Vec<u8>) -> Result<Text, AllocError> {
        match ShortLine::of(room) {
            Some(short) => Ok(Text { bytes: Bytes::Short(short) }),
            None => Text::new(mem::replace(room, Vec::new())),
        }
    }

    /// Makes a line of these bytes.
    pub(crate) fn new(bytes: Vec<u8>) -> Result<Text, AllocError> {
        let bytes = match ShortLine::of(&bytes) {
            Some(short) => Bytes::Short(short),
            None => Bytes::Long(Box::try_from_value(bytes)?),
        };
        Ok(Text { bytes })
    }

    /// Returns the bytes.
    pub(crate) fn bytes(&self) -> &[u8] {
        match &self.bytes {
            Bytes::Short(bytes) => bytes.as_slice(),
            Bytes::Long(bytes) => bytes.as_slice(),
        }
    }
}

// Up to 22 bytes, kept in the value itself.
struct ShortLine {
    bytes: [u8; MOST_SHORT],
    count: u8,
}

impl ShortLine {
    // Returns these bytes, or `None` if there are more than 22.
    fn of(bytes: &[u8]) -> Option<ShortLine> {
        let count = bytes.len();
        if count > MOST_SHORT {
            return None;
        }
        let mut place = [0; MOST_SHORT];
        place[..count].copy_from_slice(bytes);
        Some(ShortLine { bytes: place, count: count as u8 })
    }

    fn as_slice(&self) -> &[u8] {
        &self.bytes[..usize::from(self.count)]
    }
}

/// Lines that are joined in one text, one after another.
struct JoinedLines {
    text: Vec<u8>,
    lengths: Vec<usize>,
}

impl JoinedLines {
    /// Makes an empty text, with room for the lengths of `room` lines.
    fn new(room: usize) -> Result<JoinedLines, AllocError> {
        Ok(JoinedLines { text: Vec::new(), lengths: Vec::try_with_room(room)? })
    }

    /// Returns the number of lines.
    fn len(&self) -> usize {
        self.lengths.len()
    }

    /// Appends a line.
    fn try_push(&mut self, line: &[u8]) -> Result<(), AllocError> {
        self.lengths.try_make_room(1)?;
        self.text.try_extend_from_slice(line)?;
        self.lengths.push(line.len());
        Ok(())
    }

    /// Returns the whole text.
    fn into_text(self) -> Vec<u8> {
        self.text
    }
}

/// The lines of the replies to the script's lines that were taken, in order. A reply is there, or is owed to a request in flight.
///
/// As more lines are taken, those before the first owed reply are put into one text, so that no line is held twice.
pub struct Replies {
    told: JoinedLines,
    rest: VecDeque<Option<Text>>,
    owed: usize,
}

impl Replies {
    /// Makes an empty list of replies, with room for `room` replies.
    pub fn new(room: usize) -> Result<Replies, AllocError> {
        Ok(Replies { told: JoinedLines::new(room)?, rest: VecDeque::new(), owed: 0 })
    }

    /// Returns the number of lines that were taken.
    pub fn len(&self) -> usize {
        self.told.len() + self.rest.len()
    }

    /// Returns the number of replies that are owed.
    pub fn owed(&self) -> usize {
        self.owed
    }

    // Appends the first line after the text to the text, unless its reply is owed. Returns whether it did.
    fn join_first(&mut self) -> Result<bool, AllocError> {
        let Some(Some(line)) = self.rest.front() else {
            return Ok(false);
        };
        self.told.try_push(line.bytes())?;
        drop(self.rest.pop_front());
        Ok(true)
    }

    // Appends the lines before the first owed reply to the text.
    fn join(&mut self) -> Result<(), AllocError> {
        for _ in 0..self.rest.len() {
            if !self.join_first()? {
                break;
            }
        }
        Ok(())
    }

    /// Takes one more line, whose reply is there.
    pub(crate) fn try_push(&mut self, text: Vec<u8>) -> Result<(), AllocError> {
        self.join()?;
        let text = Text::new(text)?;
        self.rest.try_make_room(1)?;
        self.rest.push_back(Some(text));
        Ok(())
    }

    /// Takes one more line, whose reply is owed.
    pub(crate) fn push_owed(&mut self) -> Result<(), AllocError> {
        self.join()?;
        self.rest.try_make_room(1)?;
        self.rest.push_back(None);
        self.owed += 1;
        Ok(())
    }

    /// Fills in a reply that was owed.
    ///
    /// # Preconditions
    ///
    /// - `is_owed(self, position)` is `true`.
    pub(crate) fn fill(&mut self, position: usize, text: Text) {
        let place = position - self.told.len();
        self.rest[place] = Some(text);
        self.owed -= 1;
    }

    /// Returns the lines that are there, one after another.
    pub fn into_text(self) -> Result<Vec<u8>, AllocError> {
        let mut text = self.told.into_text();
        add_lines(&mut text, &self.rest)?;
        Ok(text)
    }
}

// Appends a line, if it is there.
fn add_line(text: &mut Vec<u8>, line: &Option<Text>) -> Result<(), AllocError> {
    match line {
        Some(line) => text.try_extend_from_slice(line.bytes()),
        None => Ok(()),
    }
}

// Appends the lines that are there.
fn add_lines(text: &mut Vec<u8>, lines: &VecDeque<Option<Text>>) -> Result<(), AllocError> {
    for place in 0..lines.len() {
        add_line(text, &lines[place])?;
    }
    Ok(())
}
