//! Engines that a sample's number sways in what they decide. Sheets alike but for
//! their samples find them alone, with nothing to compare with.

use super::mistaken::{mistaken, Given};
use super::traps::difference_alone;
use super::{caught_within, SEEDS_OF_RIGHT};
use crate::alike::samples;
use crate::{deciding, Engine, Filled, Implementation};
use reference::judge::Outcome;
use reference::words;

/// What a count is high from.
const HIGH: i64 = 1 << 20;

/// Whether the first sample of a sheet is negative.
fn begins_negative(words: &[u32]) -> bool {
    samples(words).next().is_some_and(|number| number < 0)
}

/// What is found must be that two sheets were decided unlike, and told with both.
#[track_caller]
fn assert_found(engine: &dyn Engine) {
    let difference = difference_alone(engine, deciding::check).expect("a difference");
    assert!(difference.what.starts_with("decided unlike"), "{}", difference.what);
    assert_eq!(difference.found_on.len(), 2);
}

#[track_caller]
fn assert_mistake_found(mistake: impl Fn(&Given, &mut Outcome)) {
    assert_found(&mistaken(mistake));
}

#[test]
fn nothing_is_found_in_what_is_right() {
    let right = mistaken(|_, _| {});
    assert!(difference_alone(&Implementation, deciding::check).is_none());
    assert!(difference_alone(&right, deciding::check).is_none());
    assert_eq!(caught_within(&right, SEEDS_OF_RIGHT), None);
}

/// The sign of a sample taken for the bit above it.
#[test]
fn a_negative_first_sample_refused() {
    assert_mistake_found(|given, outcome| {
        let first = given.words.iter().position(|&word| words::is_sample(word));
        let refused = first.filter(|_| outcome.number == 0 && begins_negative(&given.words));
        if let Some(at) = refused {
            (outcome.number, outcome.place) = (9, at as u64);
        }
    });
}

#[test]
fn a_high_count_said_to_need_a_longer_answer() {
    assert_mistake_found(|given, outcome| {
        if outcome.number == 0 && samples(&given.words).any(|number| number > HIGH) {
            (outcome.number, outcome.place) = (15, given.words.len() as u64);
        }
    });
}

/// Every number is right: the place alone is not.
#[test]
fn a_line_without_a_sample_told_a_word_too_far_after_an_odd_count() {
    assert_mistake_found(|given, outcome| {
        let is_odd = samples(&given.words).last().is_some_and(|number| number % 2 != 0);
        if outcome.number == 13 && is_odd {
            outcome.place += 1;
        }
    });
}

/// The sample at fault sways it, and no sample of the recording does.
#[test]
fn a_negative_sample_where_none_belongs_told_as_a_sample_at_fault() {
    assert_mistake_found(|given, outcome| {
        let at_fault = given.words.get(outcome.place as usize).copied();
        let misplaced = at_fault.filter(|&word| words::is_sample(word));
        let is_negative = misplaced.is_some_and(|word| words::signed27(word) < 0);
        if (10..=14).contains(&outcome.number) && is_negative {
            outcome.number = 9;
        }
    });
}

/// A refusal that comes before any word is read.
#[test]
fn few_distances_told_as_a_wrong_head_beside_a_negative_first_sample() {
    assert_mistake_found(|given, outcome| {
        if outcome.number == 1 && begins_negative(&given.words) {
            outcome.number = 2;
        }
    });
}

/// An engine whose result is right, and that gives back 0 for some refusals.
struct GivesBackNothing;

impl Engine for GivesBackNothing {
    fn judge(&self, sheet: &[u8], left: Filled) -> u64 {
        let number = Implementation.judge(sheet, left);
        let words = words::from_bytes(sheet).unwrap_or_default();
        if begins_negative(&words) {
            0
        } else {
            number
        }
    }

    fn lookup(&self, answer: &[u8], line: u64, sample: u64, place: u64) -> u64 {
        Implementation.lookup(answer, line, sample, place)
    }
}

#[test]
fn refusals_told_in_the_result_alone_beside_a_negative_first_sample() {
    assert_found(&GivesBackNothing);
}
