//! Engines that read one-way roads rightly, and judge by them wrongly.

use super::bytes::{change_words, Spoilt};
use super::evaluator::{self, Trapped};
use super::partly::where_one_way;
use super::traps::{found_alone, Alone};
use super::{caught, caught_within, over, SEEDS_OF_RIGHT};
use crate::reached::one_way::TAKEN;
use crate::{deciding, laws, mirror, raising, steadiness, Implementation};
use reference::distance::Distances;
use reference::evaluation::Evaluation;
use reference::fast::Fast;
use reference::judge::BYTES_PER_DISTANCE;
use reference::layout::Front;
use reference::margin::Verdict;
use reference::sheet::Sheet;
use reference::words::{self, kinds};

/// The places of [`TAKEN`].
const BOTH_WAYS: usize = 0;
const TURNED: usize = 1;
const DISTANCES_BOTH_WAYS: usize = 2;
const DISTANCES_TURNED: usize = 3;
const REGIONS_BOTH_WAYS: usize = 4;
const REGIONS_TURNED: usize = 5;

/// The code that no line has: rounds alone are wrong.
const ROUNDS: u32 = 99;

/// Right, but for lines of one code, or for rounds, which are said as if roads were
/// taken for others.
struct Misled<const CODE: u32, const AT: usize> {
    right: Fast,
    misled: Fast,
    codes: Vec<u32>,
}

impl<const CODE: u32, const AT: usize> Evaluation for Misled<CODE, AT> {
    fn evaluate(sheet: &Sheet, distances: &Distances) -> Self {
        let codes = sheet.lines.iter().map(|line| line.operator.code()).collect();
        let right = Fast::evaluate(sheet, distances);
        Misled { right, misled: TAKEN[AT].evaluated(sheet), codes }
    }

    fn verdict(&self, line: usize, sample: usize, place: usize) -> Verdict {
        let said = if self.codes[line] == CODE { &self.misled } else { &self.right };
        said.verdict(line, sample, place)
    }

    fn rounds(&self) -> u64 {
        let counted = if CODE == ROUNDS { &self.misled } else { &self.right };
        counted.rounds()
    }
}

#[track_caller]
fn assert_caught<const CODE: u32, const AT: usize>() {
    assert!(caught(&over::<Misled<CODE, AT>>()).is_some());
}

#[test]
fn nothing_is_found_in_what_is_right() {
    assert_eq!(caught_within(&over::<Misled<100, TURNED>>(), SEEDS_OF_RIGHT), None);
    for check in [steadiness::check as Alone, raising::check, laws::check, mirror::check] {
        assert_eq!(found_alone(&where_one_way(Implementation), check), None);
    }
    assert_eq!(found_alone(&where_one_way(Implementation), deciding::check), None);
}

#[test]
fn somewhere_both_ways_or_towards_the_centre() {
    assert_caught::<6, BOTH_WAYS>();
    assert_caught::<6, TURNED>();
}

#[test]
fn everywhere_both_ways_or_towards_the_centre() {
    assert_caught::<11, BOTH_WAYS>();
    assert_caught::<11, TURNED>();
}

#[test]
fn surrounds_on_roads_both_ways() {
    assert_caught::<7, BOTH_WAYS>();
    assert_caught::<15, BOTH_WAYS>();
}

#[test]
fn surrounds_on_roads_turned_round() {
    assert_caught::<7, TURNED>();
    assert_caught::<15, TURNED>();
}

#[test]
fn surrounds_with_distances_both_ways() {
    assert_caught::<7, DISTANCES_BOTH_WAYS>();
    assert_caught::<15, DISTANCES_BOTH_WAYS>();
}

#[test]
fn surrounds_with_distances_towards_the_centre() {
    assert_caught::<7, DISTANCES_TURNED>();
    assert_caught::<15, DISTANCES_TURNED>();
}

#[test]
fn boundaries_both_ways() {
    assert_caught::<7, REGIONS_BOTH_WAYS>();
    assert_caught::<15, REGIONS_BOTH_WAYS>();
}

#[test]
fn boundaries_where_roads_lead_in() {
    assert_caught::<7, REGIONS_TURNED>();
    assert_caught::<15, REGIONS_TURNED>();
}

#[test]
fn rounds_on_other_roads() {
    assert_caught::<ROUNDS, BOTH_WAYS>();
    assert_caught::<ROUNDS, TURNED>();
    assert_caught::<ROUNDS, DISTANCES_BOTH_WAYS>();
    assert_caught::<ROUNDS, DISTANCES_TURNED>();
    assert_caught::<ROUNDS, REGIONS_BOTH_WAYS>();
    assert_caught::<ROUNDS, REGIONS_TURNED>();
}

/// A run for each place that can reach the centre, and not for each that it can reach.
#[test]
fn runs_of_places_from_which_the_centre_is_reached() {
    assert!(caught(&Trapped::<{ evaluator::RUNS_TOWARDS }>).is_some());
}

/// Replaces each entry of the lent table by one made of those there and back.
fn spoil_table(distances: &mut [u8], answer: &[u8], entry: fn((usize, u64), (usize, u64)) -> u64) {
    let places = Front::told_by_bytes(answer).places;
    let (entries, _) = distances.as_chunks_mut::<BYTES_PER_DISTANCE>();
    let right: Vec<u64> = entries.iter().map(|&bytes| u64::from_le_bytes(bytes)).collect();
    for (at, bytes) in entries.iter_mut().enumerate().take(places * places) {
        let (from, to) = (at / places, at % places);
        let (there, back) = (right[at], right[to * places + from]);
        *bytes = entry((from, there), (to, back)).to_le_bytes();
    }
}

#[test]
fn a_table_of_distances_towards_the_row() {
    let engine = Spoilt(|distances, answer, _| spoil_table(distances, answer, |_, back| back.1));
    assert!(caught(&engine).is_some());
}

/// What is found for one half stands in the other half too.
#[test]
fn a_table_with_half_of_it_found() {
    let engine = Spoilt(|distances, answer, _| {
        spoil_table(
            distances,
            answer,
            |there, back| if there.0 < back.0 { there.1 } else { back.1 },
        )
    });
    assert!(caught(&engine).is_some());
}

#[test]
fn a_table_of_the_lesser_distances() {
    let engine = Spoilt(|distances, answer, _| {
        spoil_table(distances, answer, |there, back| there.1.min(back.1))
    });
    assert!(caught(&engine).is_some());
}

/// "Steadiness includes one-way networks": it is found there alone.
#[test]
fn margins_that_are_not_steady_where_roads_run_one_way() {
    let engine = where_one_way(Spoilt(|_, answer, _| {
        change_words(answer, kinds::YES, |word| words::word(kinds::YES, word << 1 & 0x7FF_FFFF))
    }));
    assert_eq!(found_alone(&engine, steadiness::check), Some(2));
    assert_eq!(found_alone(&engine, raising::check), Some(2));
}

#[test]
fn a_yes_lost_where_roads_run_one_way() {
    let engine = where_one_way(Trapped::<{ evaluator::BOUNDARY_WITHOUT_LEFT }>);
    assert_eq!(found_alone(&engine, raising::check), Some(2));
}

#[test]
fn laws_broken_where_roads_run_one_way() {
    let engine = where_one_way(Trapped::<{ evaluator::ISLANDS_COUNTED }>);
    assert_eq!(found_alone(&engine, laws::check), Some(1));
}

/// The laws alone find regions that end elsewhere than where distances lead.
#[test]
fn laws_broken_by_boundaries_where_roads_lead_in() {
    assert_eq!(found_alone(&over::<Misled<15, REGIONS_TURNED>>(), laws::check), Some(1));
    assert_eq!(found_alone(&over::<Misled<7, REGIONS_TURNED>>(), laws::check), Some(1));
}
