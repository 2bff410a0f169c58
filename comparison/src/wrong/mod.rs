//! Engines that are wrong on purpose. The comparison must catch each of them,
//! and must find nothing in one that is right.

mod bytes;
mod cities;
mod converters;
mod converters_one_way;
mod converters_told;
mod corrections;
mod corrections_aimed;
mod corrections_clash;
mod corrections_kept;
mod corrections_read;
mod corrections_told;
mod evaluator;
mod extents;
mod falling;
mod lookups;
mod mistaken;
mod network;
mod one_way;
mod one_way_words;
mod partly;
mod printing;
mod reading;
mod refusals;
mod rereads;
mod sizes;
mod surrounds;
mod swayed;
mod there_and_back;
mod tools;
mod tools_bytes;
mod traps;
mod wide;
mod wide_answers;
mod wide_lookups;
mod wide_words;

use crate::compare::Comparison;
use crate::{Engine, Filled, Implementation};
use reference::evaluation::Evaluation;
use std::marker::PhantomData;

/// Within how many seeds an engine has to be caught.
const SEEDS: u64 = 5_000;

/// For how many seeds an engine has to pass that is right and is there to show
/// that the others are caught for their fault alone.
const SEEDS_OF_RIGHT: u64 = 600;

/// An engine that evaluates wrongly, and is right in all else.
struct Over<E>(PhantomData<E>);

/// The engine over an evaluator.
fn over<E: Evaluation>() -> Over<E> {
    Over(PhantomData)
}

impl<E: Evaluation> Engine for Over<E> {
    fn judge(&self, sheet: &[u8], left: Filled) -> u64 {
        reference::judge::<E>(sheet, left.distances, left.answer, left.result)
    }

    fn lookup(&self, answer: &[u8], line: u64, sample: u64, place: u64) -> u64 {
        Implementation.lookup(answer, line, sample, place)
    }
}

/// The seed at which the comparison finds a difference.
fn caught(engine: &dyn Engine) -> Option<u64> {
    caught_within(engine, SEEDS)
}

/// The seed, up to so many, at which the comparison finds a difference.
fn caught_within(engine: &dyn Engine, seeds: u64) -> Option<u64> {
    let mut comparison = Comparison::new(engine, &Implementation, None);
    // Seed 0 would judge the largest sheet too, which takes long.
    (1..=seeds).find(|&seed| comparison.seed(seed).is_err())
}

#[test]
fn the_implementation_agrees_with_itself() {
    assert_eq!(caught(&Implementation), None);
}
