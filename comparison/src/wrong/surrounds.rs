//! Engines that read the surround without islands (code 7) or the one with them
//! (code 15) wrongly.

use super::evaluator::{self, Trapped};
use super::rereads::Rereads;
use super::traps::found_alone;
use super::{caught, over};
use crate::{laws, raising, steadiness, Engine};
use reference::distance::Distances;
use reference::evaluation::Evaluation;
use reference::fast::Fast;
use reference::margin::{Margin, Verdict};
use reference::sheet::Sheet;
use reference::words::{self, kinds};

#[test]
fn an_island_is_surrounded() {
    assert!(caught(&Trapped::<{ evaluator::ISLANDS_COUNTED }>).is_some());
}

/// The margin is right, and where it is 0 an island makes it a yes.
#[test]
fn an_island_decides_a_verdict() {
    assert!(caught(&Trapped::<{ evaluator::ISLANDS_AT_ZERO }>).is_some());
}

/// It never has the greatest result, but it may have the most rounds.
#[test]
fn the_centre_itself_cut_out() {
    assert!(caught(&Trapped::<{ evaluator::RUN_OF_CENTRE }>).is_some());
}

/// What lies beyond never has the greatest result alone.
#[test]
fn runs_within_the_ball_alone() {
    assert!(caught(&Trapped::<{ evaluator::RUNS_OF_BALL }>).is_some());
}

#[test]
fn runs_of_places_without_a_distance() {
    assert!(caught(&Trapped::<{ evaluator::RUNS_OF_ALL }>).is_some());
}

#[test]
fn runs_of_neighbours_alone() {
    assert!(caught(&Trapped::<{ evaluator::RUNS_OF_NEIGHBOURS }>).is_some());
}

#[test]
fn rounds_of_the_plain_run() {
    assert!(caught(&Trapped::<{ evaluator::ROUNDS_OF_PLAIN }>).is_some());
}

#[test]
fn rounds_of_the_run_that_decides() {
    assert!(caught(&Trapped::<{ evaluator::ROUNDS_OF_BEST }>).is_some());
}

#[test]
fn a_round_for_a_lone_place() {
    assert!(caught(&Trapped::<{ evaluator::ROUND_OF_LONE }>).is_some());
}

#[test]
fn the_least_of_the_runs() {
    assert!(caught(&Trapped::<{ evaluator::LEAST_OF_RUNS }>).is_some());
}

#[test]
fn the_last_of_the_runs() {
    assert!(caught(&Trapped::<{ evaluator::LAST_OF_RUNS }>).is_some());
}

#[test]
fn right_cut_out_in_place_of_left() {
    assert!(caught(&Trapped::<{ evaluator::RIGHT_CUT_OUT }>).is_some());
}

#[test]
fn right_cut_out_beside_left() {
    assert!(caught(&Trapped::<{ evaluator::BOTH_CUT_OUT }>).is_some());
}

/// An engine that takes some codes for others.
fn recoded(recode: fn(u32) -> u32) -> impl Engine {
    Rereads(move |words: &mut [u32]| {
        let is_line = |word: &&mut u32| words::kind(**word) == kinds::LINE;
        for word in words.iter_mut().filter(is_line) {
            *word = words::with_code(*word, recode(words::field(*word, 27, 20)));
        }
    })
}

#[test]
fn the_two_codes_exchanged() {
    let exchanged = |code: u32| match code {
        7 => 15,
        15 => 7,
        _ => code,
    };
    assert!(caught(&recoded(exchanged)).is_some());
}

#[test]
fn one_reading_for_both_codes() {
    assert!(caught(&recoded(|code| if code == 15 { 7 } else { code })).is_some());
    assert!(caught(&recoded(|code| if code == 7 { 15 } else { code })).is_some());
}

#[test]
fn the_first_code_that_there_is_not_taken() {
    assert!(caught(&recoded(|code| if code == 16 { 15 } else { code })).is_some());
    assert!(caught(&recoded(|code| if code == 16 { 0 } else { code })).is_some());
}

/// The lowest four bits of a code.
#[test]
fn codes_that_run_over() {
    assert!(caught(&recoded(|code| code & 0xF)).is_some());
}

/// The laws alone find what goes wrong with verdicts and margins, and tell the
/// sheet. Of rounds they say nothing.
#[test]
fn faults_that_break_a_law() {
    let found = |engine: &dyn Engine| found_alone(engine, laws::check);
    assert_eq!(found(&Trapped::<{ evaluator::ISLANDS_COUNTED }>), Some(1));
    assert_eq!(found(&Trapped::<{ evaluator::RUNS_OF_ALL }>), Some(1));
    assert_eq!(found(&Trapped::<{ evaluator::RUNS_OF_NEIGHBOURS }>), Some(1));
    assert_eq!(found(&Trapped::<{ evaluator::LEAST_OF_RUNS }>), Some(1));
    assert_eq!(found(&Trapped::<{ evaluator::LAST_OF_RUNS }>), Some(1));
    assert_eq!(found(&Trapped::<{ evaluator::RIGHT_CUT_OUT }>), Some(1));
    assert_eq!(found(&Trapped::<{ evaluator::BOTH_CUT_OUT }>), Some(1));
    assert_eq!(found(&recoded(|code| if code == 15 { 7 } else { code })), Some(1));
    assert_eq!(found(&recoded(|code| if code == 7 { 15 } else { code })), Some(1));
}

/// Right, but for the margins of surrounds of one code, which are twice what they
/// should be.
struct Doubled<const CODE: u32> {
    right: Fast,
    codes: Vec<u32>,
}

impl<const CODE: u32> Evaluation for Doubled<CODE> {
    fn evaluate(sheet: &Sheet, distances: &Distances) -> Self {
        let codes = sheet.lines.iter().map(|line| line.operator.code()).collect();
        Doubled { right: Fast::evaluate(sheet, distances), codes }
    }

    fn verdict(&self, line: usize, sample: usize, place: usize) -> Verdict {
        let verdict = self.right.verdict(line, sample, place);
        match verdict.margin {
            // Twice as much still has a word.
            Margin::Finite(number) if self.codes[line] == CODE && number.abs() < 1 << 26 => {
                Verdict { margin: Margin::Finite(2 * number), ..verdict }
            }
            _ => verdict,
        }
    }

    fn rounds(&self) -> u64 {
        self.right.rounds()
    }
}

/// "Both readings are to be steady": steadiness alone finds it of either code, raised
/// samples do too, and both tell the two sheets.
#[test]
fn a_surround_that_is_not_steady() {
    assert_eq!(found_alone(&over::<Doubled<7>>(), steadiness::check), Some(2));
    assert_eq!(found_alone(&over::<Doubled<15>>(), steadiness::check), Some(2));
    assert_eq!(found_alone(&over::<Doubled<7>>(), raising::check), Some(2));
    assert_eq!(found_alone(&over::<Doubled<15>>(), raising::check), Some(2));
}
