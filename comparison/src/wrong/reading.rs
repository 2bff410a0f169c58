//! Engines that read a window of until, or of since, wrongly from t on.

use super::evaluator::{greater, lesser, BOTTOM, TOP};
use super::traps::found_alone;
use super::{caught, caught_within, over, SEEDS_OF_RIGHT};
use crate::{laws, mirror};
use reference::distance::Distances;
use reference::evaluation::Evaluation;
use reference::fast::Fast;
use reference::margin::Verdict;
use reference::sheet::{Bounds, Line, Operator, Reach, Sheet};

const UNTIL: u32 = 5;
const SINCE: u32 = 12;

/// The faults.
const NONE: u32 = 0;
const SAMPLE_TOO_EARLY: u32 = 1;
const LEFT_FORGOTTEN: u32 = 2;
const LEFT_BEFORE_RIGHT: u32 = 3;
const LAST_PASSED_OVER: u32 = 4;
const LEAVES_TOO_SOON: u32 = 5;
const LEAVES_BY_MARGIN: u32 = 6;
const LEAVES_BY_VERDICT: u32 = 7;
const NOT_SET_ANEW: u32 = 8;
const LEAVES_WITH_NEIGHBOUR: u32 = 9;

/// So many places are read side by side, and left together.
const SIDE_BY_SIDE: usize = 16;

/// Right, but for the lines of one code, which are read with a fault.
struct Misread<const CODE: u32, const FAULT: u32> {
    right: Fast,
    lines: Vec<Line>,
}

impl<const CODE: u32, const FAULT: u32> Evaluation for Misread<CODE, FAULT> {
    fn evaluate(sheet: &Sheet, distances: &Distances) -> Self {
        Misread { right: Fast::evaluate(sheet, distances), lines: sheet.lines.clone() }
    }

    fn verdict(&self, line: usize, sample: usize, place: usize) -> Verdict {
        let Line { operator, extent } = self.lines[line];
        if operator.code() != CODE {
            return self.right.verdict(line, sample, place);
        }
        let mut carried = Carried { held: TOP, said: BOTTOM };
        if FAULT == NOT_SET_ANEW && sample > extent.first {
            self.read(&mut carried, &operator, (sample - 1, place), u32::MAX);
        }
        let first = place - place % SIDE_BY_SIDE;
        let most = match FAULT {
            LEAVES_WITH_NEIGHBOUR => {
                let mut neighbour = Carried { held: TOP, said: BOTTOM };
                self.read(&mut neighbour, &operator, (sample, first), u32::MAX)
            }
            _ => u32::MAX,
        };
        self.read(&mut carried, &operator, (sample, place), most);
        carried.said
    }

    fn rounds(&self) -> u64 {
        self.right.rounds()
    }
}

/// The least left so far, and what is said for the window read so far.
struct Carried {
    held: Verdict,
    said: Verdict,
}

impl<const CODE: u32, const FAULT: u32> Misread<CODE, FAULT> {
    /// Reads the window of an until or a since at t and a place, as far as it takes
    /// and no more than so many samples; gives how many.
    fn read(
        &self,
        carried: &mut Carried,
        operator: &Operator,
        (t, place): (usize, usize),
        most: u32,
    ) -> u32 {
        let ([Some(left), Some(right)], Some(Bounds { lower, upper })) =
            (operator.operands(), operator.bounds())
        else {
            return 0;
        };
        let first = if FAULT == SAMPLE_TOO_EARLY { lower.saturating_sub(1) } else { lower };
        let end = if FAULT == LAST_PASSED_OVER { upper } else { upper + 1 };
        for far in 0..end.min(most) {
            let at = match operator.reach() {
                Reach::Back(_) => t - far as usize,
                _ => t + far as usize,
            };
            let before = carried.held;
            if FAULT != LEFT_FORGOTTEN || far >= lower {
                carried.held = lesser(before, self.right.verdict(left, at, place));
            }
            if far >= first {
                let held = if FAULT == LEFT_BEFORE_RIGHT { before } else { carried.held };
                let offered = lesser(held, self.right.verdict(right, at, place));
                carried.said = greater(carried.said, offered);
            }
            if carried.leaves::<FAULT>() {
                return far + 1;
            }
        }
        end
    }
}

impl Carried {
    /// Whether nothing more is read: rightly so where neither margin nor verdict
    /// can change.
    fn leaves<const FAULT: u32>(&self) -> bool {
        let Carried { held, said } = self;
        let (margin, verdict) = (held.margin <= said.margin, held.yes <= said.yes);
        match FAULT {
            LEAVES_TOO_SOON => said.margin <= held.margin,
            LEAVES_BY_MARGIN => margin,
            LEAVES_BY_VERDICT => verdict,
            _ => margin && verdict,
        }
    }
}

fn assert_caught<const FAULT: u32>() {
    assert!(caught(&over::<Misread<UNTIL, FAULT>>()).is_some());
    assert!(caught(&over::<Misread<SINCE, FAULT>>()).is_some());
}

#[test]
fn rightly_read_nothing_is_found() {
    assert_eq!(caught_within(&over::<Misread<UNTIL, NONE>>(), SEEDS_OF_RIGHT), None);
    assert_eq!(caught_within(&over::<Misread<SINCE, NONE>>(), SEEDS_OF_RIGHT), None);
}

/// The window begins a sample before the lower bound.
#[test]
fn a_sample_that_counts_too_early() {
    assert_caught::<SAMPLE_TOO_EARLY>();
}

#[test]
fn left_forgotten_before_the_lower_bound() {
    assert_caught::<LEFT_FORGOTTEN>();
}

/// Left is asked for from t to the sample before t'.
#[test]
fn left_not_asked_for_at_the_time_of_right() {
    assert_caught::<LEFT_BEFORE_RIGHT>();
}

/// Of a window of one sample nothing is left.
#[test]
fn the_last_sample_passed_over() {
    assert_caught::<LAST_PASSED_OVER>();
}

/// As soon as what is said is no more than left has been, which it always is.
#[test]
fn reading_ended_too_soon() {
    assert_caught::<LEAVES_TOO_SOON>();
}

/// At margin 0 a later sample may still make it a yes.
#[test]
fn reading_ended_as_soon_as_the_margin_is_known() {
    assert_caught::<LEAVES_BY_MARGIN>();
}

#[test]
fn reading_ended_as_soon_as_the_verdict_is_known() {
    assert_caught::<LEAVES_BY_VERDICT>();
}

/// Places are read side by side, and what is known at one of them is not at others.
#[test]
fn reading_ended_with_a_neighbour() {
    assert_caught::<LEAVES_WITH_NEIGHBOUR>();
}

/// What is carried at the end of a window goes on into that of the next t.
#[test]
fn carried_into_the_next_window() {
    assert_caught::<NOT_SET_ANEW>();
}

fn assert_found_alone<const FAULT: u32>() {
    let (until, since) = (over::<Misread<UNTIL, FAULT>>(), over::<Misread<SINCE, FAULT>>());
    assert_eq!(found_alone(&until, laws::check), Some(1));
    assert_eq!(found_alone(&since, laws::check), Some(1));
    assert_eq!(found_alone(&until, mirror::check), Some(2));
    assert_eq!(found_alone(&since, mirror::check), Some(2));
}

/// The laws alone find them, and so does time turned round.
#[test]
fn faults_that_are_found_with_nothing_to_compare_with() {
    assert_found_alone::<SAMPLE_TOO_EARLY>();
    assert_found_alone::<LEFT_FORGOTTEN>();
    assert_found_alone::<LEFT_BEFORE_RIGHT>();
    assert_found_alone::<LAST_PASSED_OVER>();
    assert_found_alone::<LEAVES_TOO_SOON>();
    assert_found_alone::<LEAVES_BY_VERDICT>();
    assert_found_alone::<NOT_SET_ANEW>();
}
