//! Engines that judge as they should, but look wide answers up wrongly.

use super::{caught, caught_within, SEEDS_OF_RIGHT};
use crate::{Engine, Filled, Implementation};
use reference::generate::answers::Query;
use reference::layout::{Front, Layout, MOST_PLACES};
use reference::words::{self, kinds};

/// What is looked up instead, and in which words.
type Change = fn(&mut Vec<u32>, &mut Query);

/// Right but for wide answers, of which other words are read.
struct Misreads(Change);

impl Engine for Misreads {
    fn judge(&self, sheet: &[u8], left: Filled) -> u64 {
        Implementation.judge(sheet, left)
    }

    fn lookup(&self, answer: &[u8], line: u64, sample: u64, place: u64) -> u64 {
        let mut words = words::from_bytes(answer).unwrap_or_default();
        if !Layout::of(&words).is_wide() {
            return Implementation.lookup(answer, line, sample, place);
        }
        let mut query = (line, sample, place);
        (self.0)(&mut words, &mut query);
        Implementation.lookup(&words::to_bytes(&words), query.0, query.1, query.2)
    }
}

#[track_caller]
fn assert_caught(change: Change) {
    assert!(caught(&Misreads(change)).is_some());
}

#[test]
fn without_a_fault_nothing_is_found() {
    assert_eq!(caught_within(&Misreads(|_, _| {}), SEEDS_OF_RIGHT), None);
}

/// No narrow head is of kind 10, so nothing is found in a wide answer.
#[test]
fn the_narrow_head_looked_for_in_both() {
    assert_caught(|words, _| words.clear());
}

#[test]
fn spare_bits_of_the_first_word_passed_over() {
    assert_caught(|words, _| words[0] &= 0xF000_FFFF);
}

#[test]
fn places_in_the_head_passed_over() {
    assert_caught(|words, _| {
        words.iter_mut().skip(1).take(1).for_each(|head| *head &= 0xF00F_FFFF);
    });
}

#[test]
fn the_kind_of_the_head_passed_over() {
    assert_caught(|words, _| {
        let heads = words.iter_mut().skip(1).take(1);
        heads.for_each(|head| *head = words::word(kinds::ANSWER_HEAD, *head));
    });
}

#[test]
fn places_above_63_not_found() {
    assert_caught(|_, query| {
        if query.2 >= MOST_PLACES as u64 {
            query.2 = u64::MAX;
        }
    });
}

#[test]
fn places_of_8_bits() {
    assert_caught(|_, query| query.2 %= 256);
}

/// The verdicts of a city are taken for one place more or less a row.
#[test]
fn answers_of_more_than_64_places_not_found() {
    assert_caught(|words, _| {
        if Front::told(words).places > MOST_PLACES {
            words.clear();
        }
    });
}

/// An engine that looks up in answers of no place or of too many: yes wherever the
/// words are laid out for them.
struct PassesOverLimits(Layout);

impl Engine for PassesOverLimits {
    fn judge(&self, sheet: &[u8], left: Filled) -> u64 {
        Implementation.judge(sheet, left)
    }

    fn lookup(&self, answer: &[u8], line: u64, sample: u64, place: u64) -> u64 {
        let words = words::from_bytes(answer).unwrap_or_default();
        let front = Front::told(&words);
        let is_beyond = front.places == front.layout.most_places() + 1;
        let end = words::word(kinds::END, words.len().saturating_sub(1) as u32);
        let is_laid_out =
            front.is_laid_out(&words, kinds::ANSWER_HEAD) && words.last() == Some(&end);
        let is_inside = (line, sample) == (0, 0) && place < front.places as u64;
        if front.layout == self.0 && is_beyond && is_laid_out && is_inside {
            return 1;
        }
        Implementation.lookup(answer, line, sample, place)
    }
}

#[test]
fn a_place_too_many_passed_over() {
    assert!(caught(&PassesOverLimits(Layout::Narrow)).is_some());
    assert!(caught(&PassesOverLimits(Layout::Wide)).is_some());
}
