//! A window of until, folded while reading from t on. No margin of it is kept.
//! What is carried from sample to sample is the least that left has been so far
//! and what the line says for the window read so far. A window of since may be
//! read so too, backwards: the tests do, and hold it to the definitions.

#[cfg(test)]
mod tests;

use super::rows::{fold, offer};
use super::scale::Scale;

/// What is carried, a value for each place.
pub struct Carried<'a, S> {
    /// The least of left from t on, as far as has been read.
    held: &'a mut [S],
    /// What the line says for the window cut at the sample last read: nothing,
    /// the bottom, before the lower bound.
    said: &'a mut [S],
}

impl<'a, S: Scale> Carried<'a, S> {
    /// Before the first sample. What is said is written where it stays.
    pub fn new(held: &'a mut [S], said: &'a mut [S]) -> Self {
        held.fill(S::TOP);
        said.fill(S::BOTTOM);
        Carried { held, said }
    }

    /// Reads one sample more. Where it is within the bounds it is a t' as well.
    pub fn read(&mut self, left: &[S], right: &[S], is_within: bool) {
        fold(self.held, left, S::min);
        if is_within {
            offer(self.said, self.held, right);
        }
    }

    /// Whether no sample more can change what is said: it would offer no more
    /// than left has been so far.
    pub fn is_known(&self) -> bool {
        self.held.iter().zip(&*self.said).all(|(held, said)| held <= said)
    }
}
