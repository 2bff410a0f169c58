//! Engines that refuse what they should, but tell it wrongly in some sheets: in
//! large ones, far behind, or where several things are wrong at once.

use super::caught;
use super::mistaken::{mistaken, Given};
use crate::compare::Comparison;
use crate::{Engine, Filled, Implementation};
use reference::generate::random::Random;
use reference::judge::Outcome;
use reference::layout::{Front, DISTANCE_ENTRIES};
use reference::sheet::GREATEST_WEIGHT as GREATEST;
use reference::words::{self, kinds};

#[track_caller]
fn assert_caught(mistake: impl Fn(&Given, &mut Outcome)) {
    assert!(caught(&mistaken(mistake)).is_some());
}

#[test]
fn places_of_one_byte() {
    assert_caught(|_, outcome| outcome.place %= 256);
}

/// Only a sheet of more than 65,536 words can tell.
#[test]
fn places_of_two_bytes() {
    let engine = mistaken(|_, outcome| outcome.place %= 65_536);
    assert!(Comparison::new(&engine, &Implementation, None).largest(&mut Random::new(1)).is_err());
}

#[test]
fn distances_checked_before_bytes() {
    assert_caught(|given, outcome| {
        if outcome.number == 16 && given.entries < DISTANCE_ENTRIES {
            outcome.number = 1;
        }
    });
}

#[test]
fn a_short_answer_told_before_bytes() {
    assert_caught(|given, outcome| {
        if outcome.number == 16 && given.is_short() {
            (outcome.number, outcome.place) = (15, given.words.len() as u64);
        }
    });
}

#[test]
fn a_short_answer_told_before_few_distances() {
    assert_caught(|given, outcome| {
        if outcome.number == 1 && given.is_short() {
            (outcome.number, outcome.place) = (15, given.words.len() as u64);
        }
    });
}

#[test]
fn faults_in_large_networks_told_as_the_end() {
    assert_caught(|given, outcome| {
        if (2..=14).contains(&outcome.number) && given.front().places >= 40 {
            (outcome.number, outcome.place) = (14, 0);
        }
    });
}

#[test]
fn a_missing_length_told_as_a_wrong_word_in_longer_recordings() {
    assert_caught(|given, outcome| {
        if outcome.number == 13 && given.front().samples > 8 {
            outcome.number = 11;
        }
    });
}

#[test]
fn faults_behind_the_twelfth_line_told_a_word_too_far() {
    assert_caught(|given, outcome| {
        if (11..=14).contains(&outcome.number) && given.lines_up_to(outcome.place) > 12 {
            outcome.place += 1;
        }
    });
}

/// And, or and both surrounds have no window, so nothing else takes their samples
/// away.
#[test]
fn operands_without_a_common_sample_told_a_word_too_far() {
    for code in [4, 7, 8, 15] {
        assert_caught(|given, outcome| {
            if outcome.number == 13 && given.code_at(outcome.place) == Some(code) {
                outcome.place += 1;
            }
        });
    }
}

/// A window of one sample takes none away, so the operands have none in common.
#[test]
fn operands_without_a_common_sample_told_at_a_window_of_one_sample() {
    for code in [5, 12] {
        assert_caught(|given, outcome| {
            let at = outcome.place;
            let is_apart = (given.code_at(at), given.upper_at(at)) == (Some(code), Some(0));
            if outcome.number == 13 && is_apart {
                outcome.place += 2;
            }
        });
    }
}

#[test]
fn a_window_too_long_told_at_its_upper_bound() {
    for code in [5, 9, 10, 12, 13, 14] {
        assert_caught(|given, outcome| {
            if outcome.number == 13 && given.code_at(outcome.place) == Some(code) {
                (outcome.number, outcome.place) = (12, outcome.place + 2);
            }
        });
    }
}

/// An upper bound so great that a sum of 28 bits runs over.
#[test]
fn the_greatest_window_back_not_seen() {
    assert_caught(|given, outcome| {
        let is_back = matches!(given.code_at(outcome.place), Some(12..=14));
        if outcome.number == 13 && is_back && given.upper_at(outcome.place) == Some(GREATEST) {
            (outcome.number, outcome.place) = (14, given.words.len() as u64);
        }
    });
}

#[test]
fn the_first_code_that_there_is_not_taken_for_one_with_bounds() {
    assert_caught(|given, outcome| {
        if outcome.number == 11 && given.code_at(outcome.place) == Some(16) {
            (outcome.number, outcome.place) = (12, outcome.place + 1);
        }
    });
}

/// An engine that does not know a code, and refuses it with 11.
struct Lacks(u32);

impl Engine for Lacks {
    fn judge(&self, sheet: &[u8], left: Filled) -> u64 {
        let mut words = words::from_bytes(sheet).unwrap_or_default();
        let is_lacked =
            |word: &u32| words::kind(*word) == kinds::LINE && *word >> 20 & 0xFF == self.0;
        let at = words.iter().position(is_lacked);
        match at {
            Some(at) => {
                words[at] |= 0xFF << 20;
                Implementation.judge(&words::to_bytes(&words), left)
            }
            None => Implementation.judge(sheet, left),
        }
    }

    fn lookup(&self, answer: &[u8], line: u64, sample: u64, place: u64) -> u64 {
        Implementation.lookup(answer, line, sample, place)
    }
}

#[test]
fn a_code_that_is_not_known() {
    for code in 12..=15 {
        assert!(caught(&Lacks(code)).is_some());
    }
}

/// An engine that finds distances before it counts the answer's words, and
/// forgets to clear them.
struct Dirty;

impl Engine for Dirty {
    fn judge(&self, sheet: &[u8], left: Filled) -> u64 {
        let Filled { distances, answer, result } = left;
        let places = Front::told_by_bytes(sheet).places;
        let number =
            Implementation.judge(sheet, Filled { distances: &mut *distances, answer, result });
        if number == 15 && places > 6 {
            distances[0] = 3;
        }
        number
    }

    fn lookup(&self, answer: &[u8], line: u64, sample: u64, place: u64) -> u64 {
        Implementation.lookup(answer, line, sample, place)
    }
}

#[test]
fn a_short_answer_with_distances_left() {
    assert!(caught(&Dirty).is_some());
}
