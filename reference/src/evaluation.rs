//! What the answer needs of an evaluator.

use crate::distance::Distances;
use crate::margin::Verdict;
use crate::sheet::Sheet;

/// All verdicts of an accepted sheet. Both evaluators offer them in this form,
/// so that one judge serves both and their answers can be compared byte by
/// byte.
pub trait Evaluation {
    /// Evaluates every line at every sample and place where it has a verdict.
    fn evaluate(sheet: &Sheet, distances: &Distances) -> Self;

    /// The verdict of a line at a sample of its extent and a place.
    fn verdict(&self, line: usize, sample: usize, place: usize) -> Verdict;

    /// "The result carries the greatest such count, 0 without a surround."
    fn rounds(&self) -> u64;
}
