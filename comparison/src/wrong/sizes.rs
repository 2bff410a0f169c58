//! Engines that are right on what is small or simple, and wrong beyond.

use super::{caught, over};
use crate::compare::Comparison;
use crate::{Engine, Filled, Implementation};
use reference::distance::Distances;
use reference::evaluation::Evaluation;
use reference::fast::Fast;
use reference::generate::random::Random;
use reference::margin::Verdict;
use reference::sheet::{Operator, Sheet};
use reference::words::BYTES_PER_WORD;

/// Right, but for surrounds of one code on networks with more than so many
/// places, with so many roads that some go round in circles, and more than so
/// many samples: left is taken for the surround there.
pub struct InCircles<const CODE: u32, const PLACES: usize, const SAMPLES: usize> {
    right: Fast,
    /// For each surround that goes wrong its left operand.
    lefts: Vec<Option<usize>>,
}

impl<const CODE: u32, const PLACES: usize, const SAMPLES: usize> Evaluation
    for InCircles<CODE, PLACES, SAMPLES>
{
    fn evaluate(sheet: &Sheet, distances: &Distances) -> Self {
        let goes_wrong = sheet.head.places > PLACES
            && sheet.head.samples > SAMPLES
            && sheet.roads.len() >= sheet.head.places;
        let left = |operator: &Operator| match operator.surround() {
            Some((left, ..)) if goes_wrong && operator.code() == CODE => Some(left),
            _ => None,
        };
        let lefts = sheet.lines.iter().map(|line| left(&line.operator)).collect();
        InCircles { right: Fast::evaluate(sheet, distances), lefts }
    }

    fn verdict(&self, line: usize, sample: usize, place: usize) -> Verdict {
        self.right.verdict(self.lefts[line].unwrap_or(line), sample, place)
    }

    fn rounds(&self) -> u64 {
        self.right.rounds()
    }
}

#[test]
fn a_wrong_surround_above_12_places_and_16_samples() {
    assert!(caught(&over::<InCircles<7, 12, 16>>()).is_some());
    assert!(caught(&over::<InCircles<15, 12, 16>>()).is_some());
}

#[test]
fn a_wrong_surround_above_16_places_and_3_samples() {
    assert!(caught(&over::<InCircles<7, 16, 3>>()).is_some());
    assert!(caught(&over::<InCircles<15, 16, 3>>()).is_some());
}

#[test]
fn a_wrong_surround_above_48_places_and_48_samples() {
    assert!(caught(&over::<InCircles<7, 48, 48>>()).is_some());
    assert!(caught(&over::<InCircles<15, 48, 48>>()).is_some());
}

#[test]
fn a_wrong_surround_above_63_places_and_1_023_samples() {
    let caught = |engine: &dyn Engine| {
        Comparison::new(engine, &Implementation, None).largest(&mut Random::new(1)).is_err()
    };
    assert!(caught(&over::<InCircles<7, 63, 1023>>()));
    assert!(caught(&over::<InCircles<15, 63, 1023>>()));
}

/// An engine whose lookup finds nothing in long answers.
struct NearSighted;

impl Engine for NearSighted {
    fn judge(&self, sheet: &[u8], left: Filled) -> u64 {
        Implementation.judge(sheet, left)
    }

    fn lookup(&self, answer: &[u8], line: u64, sample: u64, place: u64) -> u64 {
        if answer.len() / BYTES_PER_WORD > 65_536 {
            return 0;
        }
        Implementation.lookup(answer, line, sample, place)
    }
}

#[test]
fn a_lookup_that_finds_nothing_in_long_answers() {
    assert!(Comparison::new(&NearSighted, &Implementation, None)
        .largest(&mut Random::new(1))
        .is_err());
}
