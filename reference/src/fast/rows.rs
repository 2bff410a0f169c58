//! Values row by row: a sample's places side by side.

use super::scale::Scale;

/// Rows of an operand, those of the samples that a line looks at. A sample's
/// whole row is folded at once, and the places never mix.
#[derive(Clone, Copy)]
pub struct Rows<'a, S> {
    /// The values.
    pub values: &'a [S],
    /// How many of them make a row.
    pub places: usize,
}

impl<'a, S> Rows<'a, S> {
    /// How many rows there are.
    pub fn count(&self) -> usize {
        self.values.len() / self.places
    }

    /// One row.
    pub fn row(&self, at: usize) -> &'a [S] {
        &self.values[at * self.places..(at + 1) * self.places]
    }

    /// The rows from one on.
    pub fn from(&self, first: usize) -> Self {
        Rows { values: &self.values[first * self.places..], places: self.places }
    }

    /// So many rows from the first.
    pub fn up_to(&self, count: usize) -> Self {
        Rows { values: &self.values[..count * self.places], places: self.places }
    }
}

/// Picks value by value.
pub fn fold<S: Scale>(row: &mut [S], other: &[S], pick: impl Fn(S, S) -> S) {
    for (value, &other) in row.iter_mut().zip(other) {
        *value = pick(*value, other);
    }
}

/// Raises the best to what a sample offers: the lesser of right and of what left
/// has held.
pub fn offer<S: Scale>(best: &mut [S], held: &[S], right: &[S]) {
    for ((best, &held), &right) in best.iter_mut().zip(held).zip(right) {
        *best = (*best).max(held.min(right));
    }
}
