//! Engines that are right up to 64 places, and wrong beyond.

use super::evaluator::{self, Trapped};
use super::mistaken::mistaken;
use super::partly::beyond;
use super::sizes::InCircles;
use super::traps::{found_alone, Alone};
use super::{caught, over};
use crate::alike::samples;
use crate::compare::Comparison;
use crate::{deciding, laws, mirror, raising, steadiness, Engine, Filled, Implementation};
use reference::generate::random::Random;
use reference::judge::BYTES_PER_DISTANCE;
use reference::words::{self, kinds};

/// Within how many cities of 1,024 places an engine has to be caught.
const SEEDS_OF_CITIES: u64 = 20;

/// Spoils what the implementation leaves: distances and answer.
struct Spoils(fn(&mut [u8], &mut [u8]));

impl Engine for Spoils {
    fn judge(&self, sheet: &[u8], left: Filled) -> u64 {
        let Filled { distances, answer, result } = left;
        let lent = Filled { distances: &mut *distances, answer: &mut *answer, result };
        let number = Implementation.judge(sheet, lent);
        if number == 0 {
            (self.0)(distances, answer);
        }
        number
    }

    fn lookup(&self, answer: &[u8], line: u64, sample: u64, place: u64) -> u64 {
        Implementation.lookup(answer, line, sample, place)
    }
}

/// The margin of every yes doubled, as far as it fits.
fn margins_doubled(_: &mut [u8], answer: &mut [u8]) {
    for chunk in answer.chunks_exact_mut(4) {
        let word = chunk.iter().rev().fold(0, |word, &byte| word << 8 | u32::from(byte));
        if words::kind(word) == kinds::YES {
            let doubled = words::word(kinds::YES, word << 1 & 0x7FF_FFFF);
            chunk.copy_from_slice(&doubled.to_le_bytes());
        }
    }
}

/// What is right is not caught for being wrapped.
#[test]
fn nothing_is_found_in_what_is_right() {
    for check in [steadiness::check as Alone, raising::check, laws::check, mirror::check] {
        assert_eq!(found_alone(&beyond(Implementation), check), None);
    }
    assert_eq!(found_alone(&beyond(Implementation), deciding::check), None);
}

#[test]
fn surrounds_wrong_beyond_64_places() {
    assert!(caught(&over::<InCircles<7, 64, 0>>()).is_some());
    assert!(caught(&over::<InCircles<15, 64, 0>>()).is_some());
}

/// 34 bits hold 63 roads of the greatest weight, and not 1,023 on a path.
#[test]
fn distances_of_34_bits() {
    let engine = Spoils(|distances, _| {
        for entry in distances.chunks_exact_mut(BYTES_PER_DISTANCE) {
            let high = entry[4] & 3;
            if entry[4..] != [0xFF; 4] {
                entry[4..].copy_from_slice(&[high, 0, 0, 0]);
            }
        }
    });
    let is_caught = |seed: u64| {
        Comparison::new(&engine, &Implementation, None)
            .largest_city(&mut Random::new(seed))
            .is_err()
    };
    assert!((0..SEEDS_OF_CITIES).any(is_caught));
}

#[test]
fn margins_that_are_not_steady_beyond_64_places() {
    let engine = beyond(Spoils(margins_doubled));
    assert_eq!(found_alone(&engine, steadiness::check), Some(2));
}

#[test]
fn a_boundary_without_left_beyond_64_places() {
    let engine = beyond(Trapped::<{ evaluator::BOUNDARY_WITHOUT_LEFT }>);
    assert_eq!(found_alone(&engine, raising::check), Some(2));
}

#[test]
fn laws_broken_beyond_64_places() {
    let engine = beyond(Trapped::<{ evaluator::ISLANDS_COUNTED }>);
    assert_eq!(found_alone(&engine, laws::check), Some(1));
}

#[test]
fn windows_clipped_one_way_beyond_64_places() {
    let engine = beyond(Trapped::<{ evaluator::AHEAD_CLIPPED }>);
    assert_eq!(found_alone(&engine, mirror::check), Some(2));
}

#[test]
fn a_negative_first_sample_refused_beyond_64_places() {
    let engine = mistaken(|given, outcome| {
        let is_negative = samples(&given.words).next().is_some_and(|number| number < 0);
        if outcome.number == 0 && is_negative {
            (outcome.number, outcome.place) = (9, 2);
        }
    });
    assert_eq!(found_alone(&beyond(engine), deciding::check), Some(2));
}
