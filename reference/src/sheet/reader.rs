//! A sheet's words read front to back.

use crate::refusal::{Fault, Refusal};
use crate::words;

/// The words of a sheet and the index of the word to be read next. As it never
/// passes the end, the index of a missing word is the sheet's length, which is
/// just the place a refusal has to name.
pub struct Reader<'a> {
    words: &'a [u32],
    place: usize,
}

impl<'a> Reader<'a> {
    /// A reader before the first word.
    pub fn new(words: &'a [u32]) -> Self {
        Reader { words, place: 0 }
    }

    /// The index of the next word.
    pub fn place(&self) -> usize {
        self.place
    }

    /// The next word, if there is one of this kind; it is not yet passed.
    pub fn peek(&self, kind: u32) -> Option<u32> {
        let word = self.words.get(self.place).copied();
        word.filter(|&word| words::kind(word) == kind)
    }

    /// Whether all words are read.
    pub fn is_at_end(&self) -> bool {
        self.place == self.words.len()
    }

    /// Passes the word that was looked at.
    pub fn pass(&mut self) {
        self.place += 1;
    }

    /// The next word if it is there and of this kind, else the fault.
    pub fn expect(&self, kind: u32, fault: Fault) -> Result<u32, Refusal> {
        self.peek(kind).ok_or(self.refusal(fault))
    }

    /// Refuses the next word unless the condition holds.
    pub fn require(&self, condition: bool, fault: Fault) -> Result<(), Refusal> {
        if condition {
            Ok(())
        } else {
            Err(self.refusal(fault))
        }
    }

    /// The refusal of a fault at the next word.
    pub fn refusal(&self, fault: Fault) -> Refusal {
        Refusal::new(fault, self.place)
    }
}
