//! What a judge leaves behind.

use crate::answer::Answer;
use crate::judge::{Outcome, BYTES_PER_DISTANCE};
use crate::{numbers, words};

/// The number given back, and the bytes of the lent buffers after the call.
#[derive(Clone, Debug, PartialEq, Eq)]
pub struct Left {
    /// The number given back.
    pub number: u64,
    /// The distance table's bytes.
    pub distances: Vec<u8>,
    /// The answer's bytes.
    pub answer: Vec<u8>,
    /// The result's bytes.
    pub result: Vec<u8>,
}

impl Left {
    /// The result, if 40 bytes were lent for it.
    pub fn outcome(&self) -> Option<Outcome> {
        Outcome::from_bytes(&self.result)
    }

    /// The answer's words, if whole ones were lent.
    pub fn answer_words(&self) -> Option<Vec<u32>> {
        words::from_bytes(&self.answer)
    }

    /// The answer, if it is a whole one.
    pub fn whole_answer(&self) -> Option<Answer> {
        Answer::read(&self.answer_words()?)
    }

    /// The entry of the distance table at an index, if it has one.
    pub fn distance(&self, index: usize) -> Option<u64> {
        let entry = self.distances.chunks_exact(BYTES_PER_DISTANCE).nth(index)?;
        numbers::read(entry).map(|[distance]| distance)
    }
}
