//! Engines that are right on narrow sheets, and decide wide ones wrongly.

use super::caught;
use super::mistaken::{mistaken, Given};
use crate::{Engine, Filled, Implementation};
use reference::judge::{Outcome, BYTES_PER_DISTANCE};
use reference::layout::{Front, DISTANCE_ENTRIES, ENOUGH_DISTANCES, MOST_PLACES};
use reference::refusal::Refusal;
use reference::sheet::check;
use reference::words::{self, kinds};

/// The engine that makes a mistake on wide sheets alone must be caught.
#[track_caller]
fn assert_caught(mistake: impl Fn(&Given, &mut Outcome)) {
    let engine = mistaken(|given, outcome| {
        if given.front().layout.is_wide() {
            mistake(given, outcome);
        }
    });
    assert!(caught(&engine).is_some());
}

/// Tells a refusal instead of what was right.
fn tell(outcome: &mut Outcome, number: u64, place: u64) {
    (outcome.number, outcome.place) = (number, place);
}

/// Whether fewer distances are lent than places squared.
fn has_few(given: &Given) -> bool {
    given.entries < given.front().places * given.front().places
}

/// What the sheet is refused for if enough is lent.
fn besides(given: &Given) -> Option<Refusal> {
    check(&given.words, ENOUGH_DISTANCES).err()
}

#[test]
fn few_distances_told_before_a_wide_head() {
    assert_caught(|given, outcome| {
        if outcome.number == 17 && has_few(given) {
            tell(outcome, 1, 0);
        }
    });
}

#[test]
fn few_distances_told_before_the_limits() {
    assert_caught(|given, outcome| {
        if outcome.number == 3 && has_few(given) {
            tell(outcome, 1, 0);
        }
    });
}

#[test]
fn few_distances_told_after_the_roads() {
    assert_caught(|given, outcome| match besides(given) {
        Some(refusal) if outcome.number == 1 && (4..=7).contains(&refusal.number()) => {
            tell(outcome, refusal.number(), refusal.place as u64);
        }
        _ => {}
    });
}

#[test]
fn few_distances_told_after_the_sheet() {
    assert_caught(|given, outcome| match besides(given) {
        Some(refusal) if outcome.number == 1 && refusal.number() >= 8 => {
            tell(outcome, refusal.number(), refusal.place as u64);
        }
        _ => {}
    });
}

#[test]
fn few_distances_told_after_a_short_answer() {
    assert_caught(|given, outcome| {
        if outcome.number == 1 && given.is_short() {
            tell(outcome, 15, given.words.len() as u64);
        }
    });
}

#[test]
fn few_distances_told_at_the_head() {
    assert_caught(|_, outcome| {
        if outcome.number == 1 {
            outcome.place = 1;
        }
    });
}

/// After the front, as it should be, but by the number of a narrow sheet.
#[test]
fn as_many_distances_asked_for_as_for_a_narrow_sheet() {
    assert_caught(|given, outcome| {
        let is_of_front = matches!(outcome.number, 3 | 16 | 17);
        if !is_of_front && given.entries < DISTANCE_ENTRIES {
            tell(outcome, 1, 0);
        }
    });
}

/// An engine that asks for no more than 4,096 distances, and leaves away what there
/// is no room for.
struct NeedsNoMore;

impl Engine for NeedsNoMore {
    fn judge(&self, sheet: &[u8], left: Filled) -> u64 {
        let Filled { distances, answer, result } = left;
        let needed = Front::told_by_bytes(sheet).distances_needed() * BYTES_PER_DISTANCE;
        let lent = distances.len();
        let is_whole = lent.is_multiple_of(BYTES_PER_DISTANCE);
        if lent >= needed || lent < DISTANCE_ENTRIES * BYTES_PER_DISTANCE || !is_whole {
            return Implementation.judge(sheet, Filled { distances, answer, result });
        }
        let mut enough = vec![0; needed];
        let number = Implementation.judge(sheet, Filled { distances: &mut enough, answer, result });
        distances.copy_from_slice(&enough[..lent]);
        number
    }

    fn lookup(&self, answer: &[u8], line: u64, sample: u64, place: u64) -> u64 {
        Implementation.lookup(answer, line, sample, place)
    }
}

#[test]
fn no_more_distances_asked_for_than_for_a_narrow_sheet() {
    assert!(caught(&NeedsNoMore).is_some());
}

#[test]
fn a_wide_sheet_told_to_have_no_head() {
    assert_caught(|_, outcome| tell(outcome, 2, 0));
}

#[test]
fn a_wide_head_told_as_a_missing_one() {
    assert_caught(|_, outcome| {
        if outcome.number == 17 {
            outcome.number = 2;
        }
    });
}

#[test]
fn limits_told_at_the_first_word() {
    assert_caught(|_, outcome| {
        if outcome.number == 3 {
            outcome.place = 0;
        }
    });
}

/// A count out of its limits told as the sizes of a narrow sheet are.
#[test]
fn a_count_told_as_the_limits() {
    assert_caught(|given, outcome| {
        if (outcome.number, outcome.place) == (17, 0) && !given.front().has_places_in_limits() {
            outcome.number = 3;
        }
    });
}

#[test]
fn a_wide_head_told_at_the_other_word() {
    for place in [0, 1] {
        assert_caught(|_, outcome| {
            if (outcome.number, outcome.place) == (17, place) {
                outcome.place = 1 - place;
            }
        });
    }
}

/// Signals and samples are looked at before the places that belong not there.
#[test]
fn limits_told_before_places_in_the_head() {
    assert_caught(|given, outcome| {
        let head = given.words.get(1).copied().unwrap_or(0);
        let (signals, samples) = (given.front().middle, given.front().samples);
        let is_outside = !(1..=16).contains(&signals) || !(1..=1024).contains(&samples);
        let is_told = (outcome.number, outcome.place) == (17, 1);
        if is_told && words::kind(head) == kinds::HEAD && is_outside {
            outcome.number = 3;
        }
    });
}

#[test]
fn more_than_64_places_refused() {
    assert_caught(|given, outcome| {
        if outcome.number == 0 && given.front().places > MOST_PLACES {
            tell(outcome, 17, 0);
        }
    });
}

#[test]
fn few_places_refused() {
    assert_caught(|given, outcome| {
        if outcome.number == 0 && given.front().places <= MOST_PLACES {
            tell(outcome, 17, 0);
        }
    });
}

#[test]
fn faults_told_as_if_the_head_were_the_first_word() {
    assert_caught(|_, outcome| {
        if (4..=15).contains(&outcome.number) {
            outcome.place -= 1;
        }
    });
}
