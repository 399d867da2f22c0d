//! Names of guarded words.
use crate::shared::WORD_COUNT;

/// One of a gate's eight guarded words, numbered from 0 to 7.
///
/// Make it a constant to give the word a name; a wrong number then doesn't compile:
///
/// ```
/// use percpu_gate::Word;
///
/// const SECTOR_LIMIT: Word = Word::new(0).unwrap();
/// assert_eq!(SECTOR_LIMIT.number(), 0);
/// assert_eq!(Word::new(8), None);
/// ```
#[derive(Clone, Copy, Debug, PartialEq, Eq, PartialOrd, Ord, Hash)]
pub struct Word(u32);

impl Word {
    /// All eight words, in order.
    ///
    /// ```
    /// # use percpu_gate::Word;
    /// assert_eq!(Word::ALL.len(), 8);
    /// assert_eq!(Word::ALL[7], Word::new(7).unwrap());
    /// ```
    pub const ALL: [Word; WORD_COUNT] = [Word(0), Word(1), Word(2), Word(3), Word(4), Word(5), Word(6), Word(7)];

    /// Returns the word with this number, if there is one.
    ///
    /// ```
    /// # use percpu_gate::Word;
    /// assert!(Word::new(7).is_some());
    /// assert!(Word::new(8).is_none());
    /// ```
    #[must_use]
    pub const fn new(number: u32) -> Option<Word> {
        if (number as usize) < WORD_COUNT { Some(Word(number)) } else { None }
    }

    /// Returns the number of the word, from 0 to 7.
    ///
    /// ```
    /// # use percpu_gate::Word;
    /// assert_eq!(Word::ALL[3].number(), 3);
    /// ```
    #[must_use]
    pub const fn number(self) -> u32 {
        self.0
    }
}
